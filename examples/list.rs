//! Leafs through all the shortest days of a job file: prints the first four, a line each with action@minute for every
//! step, and says how many there are, where the list is short. Usage: list FILE
#[allow(dead_code)]
mod ruhkevois;
use ruhkevois::Answer;
use std::process::ExitCode;

fn main() -> ExitCode {
    let Some(Ok(file)) = std::env::args().nth(1).map(std::fs::read) else {
        eprintln!("usage: list FILE, a job file that can be read");
        return ExitCode::from(2);
    };
    let (shown, most) = (4, 50); // days to print, and to count
    let mut plan = [0; 96];
    for place in 0..most {
        match ruhkevois::list(&file, place, &mut plan) {
            Answer::Done { end, steps, .. } if place < shown => {
                print!("{place}: end {end}");
                for step in plan[..3 * steps as usize].chunks_exact(3) {
                    print!(" {}@{}", step[0], u16::from_le_bytes([step[1], step[2]]));
                }
                println!();
            }
            Answer::Done { .. } => {}
            Answer::Refused(28) => {
                println!("shortest days: {place}");
                return ExitCode::SUCCESS;
            }
            Answer::Refused(number) => {
                println!("refused {number}");
                return ExitCode::from(1);
            }
            Answer::Unreachable => unreachable!("only earliest times are unreachable"),
        }
    }
    println!("shortest days: {most} or more");
    ExitCode::SUCCESS
}
