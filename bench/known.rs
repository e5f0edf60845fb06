//! The days of a folder, and their least ends: the first two columns of TABLE.tsv in the folder, where there is one.
use std::collections::HashMap;
use std::path::{Path, PathBuf};

/// The job files of a folder, by name.
pub fn job_files(folder: &str) -> Vec<PathBuf> {
    let entries = std::fs::read_dir(folder).expect("a folder of job files");
    let mut paths: Vec<_> = entries.map(|entry| entry.expect("a file").path()).collect();
    paths.retain(|path| path.extension().is_some_and(|x| x == "job"));
    paths.sort();
    paths
}

/// The day's name: that of its file.
pub fn day(path: &Path) -> String {
    path.file_stem().unwrap_or_default().to_string_lossy().into_owned()
}

/// For each day the least end.
pub struct Known(HashMap<String, String>);

impl Known {
    /// The table of the folder; no days where there is none.
    pub fn of(folder: &str) -> Known {
        let text = std::fs::read_to_string(Path::new(folder).join("TABLE.tsv")).unwrap_or_default();
        let entry = |line: &str| {
            let mut columns = line.split('\t').map(str::to_string);
            columns.next().zip(columns.next())
        };
        Known(text.lines().skip(1).filter_map(entry).collect())
    }

    /// What stands behind an end: the known one, where it differs.
    pub fn mark(&self, day: &str, end: &str) -> String {
        match self.0.get(day) {
            Some(least) if end != "-" && least != end => format!(" differs from {least}"),
            _ => String::new(),
        }
    }
}
