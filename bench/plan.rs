//! Plans each job file of a folder with the proved day program and with the plain search beside it, a process each, and
//! prints a line for each day. A time is that of the whole process.
mod known;
mod median;
use known::Known;
use median::median;
use std::fs::File;
use std::path::Path;
use std::process::Command;
use std::time::Instant;

/// Below this many seconds the start of a process counts too much for a ratio of times.
const SHORT: f64 = 0.020;

/// Runs a program on a job file, so many seconds at most: the first line printed, and the seconds taken.
fn run(program: &str, limit: &str, path: &Path) -> (String, f64) {
    let file = File::open(path).expect("a job file");
    let begin = Instant::now();
    let output = Command::new("timeout").arg(limit).arg(program).stdin(file).output().expect("a program to run");
    let seconds = begin.elapsed().as_secs_f64();
    let text = String::from_utf8_lossy(&output.stdout);
    (text.lines().next().unwrap_or_default().to_string(), seconds)
}

/// A day's end (22: no plan; -: not planned in time) and seconds by both programs, and the nodes of the plain one.
struct Day {
    end: String,
    plain_end: String,
    seconds: f64,
    plain_seconds: f64,
    nodes: u64,
}

impl Day {
    /// Plans the day by one program after the other. The plain one keeps the limit itself.
    fn plan(path: &Path) -> Day {
        let (proved, seconds) = run("target/bin/day", "10", path);
        let (plain, plain_seconds) = run("target/search", "11", path);
        let (plain_end, nodes) = plain.split_once(' ').expect("an end and a number of nodes");
        Day {
            end: proved.split(' ').nth(1).unwrap_or("-").to_string(),
            plain_end: plain_end.to_string(),
            seconds,
            plain_seconds,
            nodes: nodes.parse().expect("a number of nodes"),
        }
    }

    /// The proved program's time as a multiple of the plain one's, where both solved the day and neither time is short.
    fn ratio(&self) -> Option<f64> {
        let solved = self.end != "-" && self.plain_end != "-";
        (solved && SHORT < self.seconds.min(self.plain_seconds)).then(|| self.seconds / self.plain_seconds)
    }

    /// What is wrong with the end, if anything.
    fn mark(&self, name: &str, known: &Known) -> String {
        if self.end != "-" && self.plain_end != "-" && self.end != self.plain_end {
            return format!(" differs from the plain {}", self.plain_end);
        }
        known.mark(name, &self.end)
    }
}

fn print(name: &str, day: &Day, known: &Known) {
    let more = if day.plain_end == "-" { "+" } else { "" };
    let ratio = day.ratio().map_or("-".to_string(), |ratio| format!("{ratio:.2}"));
    println!(
        "{name}\t{}{}\t{}{more}\t{:.3}\t{:.3}\t{ratio}",
        day.end,
        day.mark(name, known),
        day.nodes,
        day.seconds,
        day.plain_seconds,
    );
}

fn main() {
    let folder = std::env::args().nth(1).expect("a folder of job files");
    let known = Known::of(&folder);
    let (mut all, mut solved, mut wrong, mut ratios) = (0, 0, 0, Vec::new());
    println!("day\tend\tnodes\tseconds\tplain\tseconds/plain");
    for path in known::job_files(&folder) {
        let name = known::day(&path);
        let day = Day::plan(&path);
        print(&name, &day, &known);
        all += 1;
        solved += (day.end != "-") as usize;
        wrong += !day.mark(&name, &known).is_empty() as usize;
        ratios.extend(day.ratio());
    }
    println!("{solved} of {all} planned in 10 s each, {wrong} wrong");
    println!("median of seconds/plain over {} days: {:.2}", ratios.len(), median(ratios.clone()));
}
