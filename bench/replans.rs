//! Plans begun days anew with the proved program and with the plain search beside it, ten seconds each: the questions
//! of TABLE.tsv in a folder, whose days are job files in `days` or `handover` beside it. Prints a line for each: by both
//! the end (35: no plan; -: none in time) and the seconds, those of the proved program for the whole process, and the
//! plain one's nodes.
mod landmarks;
#[allow(dead_code)]
mod plain;
#[allow(dead_code)]
mod planner;
mod rows;
#[allow(dead_code)]
mod without;
use planner::{replan, Begun};
use std::path::{Path, PathBuf};
use std::process::Command;
use std::time::Instant;

/// A line of the table: the day, the file of the current plan, the minute, the goal set and the least end.
struct Question<'a> {
    day: &'a str,
    plan: &'a str,
    minute: u32,
    goal: u64,
    least: &'a str,
}

fn question(line: &str) -> Question<'_> {
    let row: Vec<_> = line.split('\t').collect();
    let number = |at: usize| row[at].parse().expect("a number");
    Question { day: row[0], plan: row[1], minute: number(2) as u32, goal: number(3), least: row[4] }
}

/// An end as printed, and the seconds taken.
struct Answer {
    end: String,
    seconds: f64,
}

impl Question<'_> {
    fn job(&self, folder: &Path) -> PathBuf {
        let files = ["days", "handover"].map(|days| folder.join(format!("../{days}/{}.job", self.day)));
        files.into_iter().find(|file| file.exists()).expect("a job file")
    }

    /// By the proved program, in a process of its own.
    fn ask_proved(&self, folder: &Path) -> Answer {
        let begin = Instant::now();
        let files = [self.job(folder), folder.join(self.plan)];
        let numbers = [self.minute.to_string(), self.goal.to_string()];
        let program = ["10", "target/bin/replan"];
        let output = Command::new("timeout").args(program).args(files).args(numbers).output().expect("a program to run");
        let text = String::from_utf8_lossy(&output.stdout);
        let end = text.lines().next().and_then(|line| line.split(' ').nth(1)).unwrap_or("-").to_string();
        Answer { end, seconds: begin.elapsed().as_secs_f64() }
    }

    /// By the plain search, with its nodes.
    fn ask_plain(&self, folder: &Path) -> (Answer, u64) {
        let file = std::fs::read(self.job(folder)).expect("a job file");
        let mut job = plain::read(&file).expect("a job");
        job.goal = self.goal;
        let current = std::fs::read(folder.join(self.plan)).expect("a plan");
        let begin = Instant::now();
        let (end, nodes) = replan(&job, Begun::at(&current, self.minute));
        (Answer { end, seconds: begin.elapsed().as_secs_f64() }, nodes)
    }

    /// What is wrong with an end, if anything.
    fn mark(&self, end: &str) -> String {
        if end == "-" || end == self.least { String::new() } else { format!(" differs from {}", self.least) }
    }
}

fn main() {
    let folder = std::env::args().nth(1).expect("a folder of begun days");
    let folder = Path::new(&folder);
    let table = std::fs::read_to_string(folder.join("TABLE.tsv")).expect("a table");
    let (mut all, mut solved, mut wrong, mut visited) = (0, [0, 0], 0, 0);
    println!("day\tminute\tgoal\tend\tseconds\tplain end\tnodes\tplain seconds");
    for q in table.lines().skip(1).map(question) {
        let proved = q.ask_proved(folder);
        let (plain, nodes) = q.ask_plain(folder);
        print!("{}\t{}\t{}\t{}{}\t{:.3}", q.day, q.minute, q.goal, proved.end, q.mark(&proved.end), proved.seconds);
        println!("\t{}{}\t{nodes}\t{:.3}", plain.end, q.mark(&plain.end), plain.seconds);
        all += 1;
        for (k, answer) in [&proved, &plain].iter().enumerate() {
            solved[k] += (answer.end != "-") as usize;
            wrong += !q.mark(&answer.end).is_empty() as usize;
        }
        visited += nodes;
    }
    println!("{} of {all} planned in ten seconds each, by the plain search {}; {wrong} wrong", solved[0], solved[1]);
    println!("{visited} nodes of the plain search");
}
