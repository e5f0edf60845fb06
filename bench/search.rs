//! The plain search as a program. Without a folder it plans the job file on standard input and prints the end (22: no
//! plan; -: given up) and the nodes; given a folder of job files it prints a table. A day is given up after ten seconds
//! or, where a number of nodes is named, after these. Rules can be left out by their names (`without.rs`).
mod known;
mod landmarks;
#[allow(dead_code)]
mod plain;
#[allow(dead_code)]
mod planner;
mod rows;
mod without;
use known::Known;
use planner::{plan, Way};
use std::io::Read;
use std::time::Instant;
use without::Without;

const USAGE: &str = "usage: search [FOLDER] [--nodes N] [--without RULE ...]";

/// Plans every job file of a folder, and prints a line for each.
fn table(folder: &str, way: &Way) {
    println!("day\tend\tseconds\tnodes");
    let known = Known::of(folder);
    for path in known::job_files(folder) {
        let file = std::fs::read(&path).expect("a job file");
        let begin = Instant::now();
        let (end, nodes) = plan(&file, way);
        let seconds = begin.elapsed().as_secs_f64();
        let day = known::day(&path);
        println!("{day}\t{end}{}\t{seconds:.3}\t{nodes}", known.mark(&day, &end));
    }
}

/// The arguments before the first of this name and, where there is one, those behind it.
fn parted<'a>(arguments: &'a [String], name: &str) -> (&'a [String], Option<&'a [String]>) {
    match arguments.iter().position(|argument| argument == name) {
        Some(at) => (&arguments[..at], Some(&arguments[at + 1..])),
        None => (arguments, None),
    }
}

/// The folder, if any, and the way to search that the arguments name; none where they are not as in the usage.
fn request(arguments: &[String]) -> Option<(Option<&str>, Way)> {
    let (before, rules) = parted(arguments, "--without");
    let (folder, nodes) = parted(before, "--nodes");
    let without = Without::rules(rules.unwrap_or_default().iter().map(String::as_str))?;
    let nodes = match nodes {
        None => None,
        Some([number]) => Some(number.parse().ok()?),
        Some(_) => return None,
    };
    match folder {
        [] => Some((None, Way { without, nodes })),
        [folder] => Some((Some(folder), Way { without, nodes })),
        _ => None,
    }
}

fn main() {
    let arguments: Vec<_> = std::env::args().skip(1).collect();
    let Some((folder, way)) = request(&arguments) else {
        eprintln!("{USAGE}");
        std::process::exit(2);
    };
    if let Some(folder) = folder {
        return table(folder, &way);
    }
    let mut file = Vec::new();
    std::io::stdin().read_to_end(&mut file).expect("a job file on standard input");
    let (end, nodes) = plan(&file, &way);
    println!("{end} {nodes}");
}
