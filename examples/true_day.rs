//! Plans a job file of two observations under trees; they took 45 and 50 minutes, and the day as it went is told.
//! Usage: true_day FILE
#[allow(dead_code)]
mod ruhkevois;
use ruhkevois::Answer;
use std::process::ExitCode;

/// Prints the answer in a line, with the peak of the first pool; gives the number of steps, where there is a day.
fn print_day(what: &str, answer: Answer) -> Option<usize> {
    match answer {
        Answer::Done { end, steps, peaks } => {
            println!("{what}: end {end}, peak {}", peaks[0]);
            Some(steps as usize)
        }
        Answer::Refused(number) => {
            println!("{what}: refused {number}");
            None
        }
        Answer::Unreachable => unreachable!("only earliest times are unreachable"),
    }
}

fn main() -> ExitCode {
    let Some(Ok(file)) = std::env::args().nth(1).map(std::fs::read) else {
        eprintln!("usage: true_day FILE, a job file that can be read");
        return ExitCode::from(2);
    };
    let mut plan = [0; 96];
    let answer = ruhkevois::plan(&file, &mut plan);
    let Some(steps) = print_day("planned", answer) else {
        return ExitCode::from(1);
    };
    let answer = ruhkevois::true_day(&file, &plan[..3 * steps], &[45, 50]);
    if print_day("true day", answer).is_some() { ExitCode::SUCCESS } else { ExitCode::from(1) }
}
