//! Plans a job file, checks the plan, and prints it as the day program does. Usage: plan FILE
#[allow(dead_code)]
mod ruhkevois;
use ruhkevois::Answer;
use std::process::ExitCode;

/// The length of an action, as the job file has it.
fn length_of_action(file: &[u8], action: u8) -> u16 {
    let (pools, stores) = (file[6] as usize / 4, file[10] as usize / 4);
    let actions = u16::from_le_bytes([file[12], file[13]]) as usize;
    file[actions + (25 + 4 * pools + 4 * stores) * action as usize] as u16
}

/// The line of the peaks: a number for each pool of the job.
fn print_peaks(file: &[u8], peaks: [u32; ruhkevois::POOLS]) {
    let peaks: String = peaks.iter().take(file[6] as usize / 4).map(|peak| format!(" {peak}")).collect();
    println!("peak{peaks}");
}

fn main() -> ExitCode {
    let Some(Ok(file)) = std::env::args().nth(1).map(std::fs::read) else {
        eprintln!("usage: plan FILE, a job file that can be read");
        return ExitCode::from(2);
    };
    let mut plan = [0; 96];
    let steps = match ruhkevois::plan(&file, &mut plan) {
        Answer::Done { end, steps, peaks } => {
            println!("makespan {end}\nsteps {steps}");
            print_peaks(&file, peaks);
            &plan[..3 * steps as usize]
        }
        Answer::Refused(number) => {
            println!("refused {number}");
            return ExitCode::from(1);
        }
        Answer::Unreachable => unreachable!("only earliest times are unreachable"),
    };
    for step in steps.chunks_exact(3) {
        let start = u16::from_le_bytes([step[1], step[2]]);
        println!("{start} {} {}", start + length_of_action(&file, step[0]), step[0]);
    }
    let Answer::Done { end, .. } = ruhkevois::check(&file, steps) else {
        return ExitCode::from(1);
    };
    println!("checked: end {end}");
    ExitCode::SUCCESS
}
