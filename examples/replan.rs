//! Plans a job file; then, at minute 10 of that day, the crew wants fact 0 alone, and the rest of the day is planned
//! anew. Usage: replan FILE
#[allow(dead_code)]
mod ruhkevois;
use ruhkevois::Answer;
use std::process::ExitCode;

/// Prints the answer in a line, then start and action of each step; gives the plan's bytes, where there is one.
fn print_plan<'a>(what: &str, answer: Answer, plan: &'a [u8]) -> Option<&'a [u8]> {
    match answer {
        Answer::Done { end, steps, .. } => {
            println!("{what}: end {end}");
            let plan = &plan[..3 * steps as usize];
            for step in plan.chunks_exact(3) {
                println!("{} {}", u16::from_le_bytes([step[1], step[2]]), step[0]);
            }
            Some(plan)
        }
        Answer::Refused(number) => {
            println!("{what}: refused {number}");
            None
        }
        Answer::Unreachable => unreachable!("only earliest times are unreachable"),
    }
}

fn main() -> ExitCode {
    let Some(Ok(file)) = std::env::args().nth(1).map(std::fs::read) else {
        eprintln!("usage: replan FILE, a job file that can be read");
        return ExitCode::from(2);
    };
    let (minute, goal) = (10, 1 << 0);
    let (mut current, mut plan) = ([0; 96], [0; 96]);
    let answer = ruhkevois::plan(&file, &mut current);
    let Some(current) = print_plan("planned", answer, &current) else {
        return ExitCode::from(1);
    };
    let answer = ruhkevois::replan(&file, current, minute, goal, &mut plan);
    if print_plan("replanned", answer, &plan).is_some() { ExitCode::SUCCESS } else { ExitCode::from(1) }
}
