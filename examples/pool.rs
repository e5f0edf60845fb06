//! Plans the job files of two crews, each alone, then pools their gear and plans the pooled job: how much earlier are
//! both done than the later of the two alone? Usage: pool FIRST SECOND
#[allow(dead_code)]
mod ruhkevois;
use ruhkevois::Answer;
use std::process::ExitCode;

/// Plans the job of a file and prints its end and the peak of its first pool; gives the end, where there is a day.
fn print_day(what: &str, file: &[u8]) -> Option<u32> {
    match ruhkevois::plan(file, &mut [0; 96]) {
        Answer::Done { end, peaks, .. } => {
            println!("{what}: end {end}, peak {}", peaks[0]);
            Some(end)
        }
        Answer::Refused(number) => {
            println!("{what}: refused {number}");
            None
        }
        Answer::Unreachable => unreachable!("only earliest times are unreachable"),
    }
}

fn main() -> ExitCode {
    let files: Vec<_> = std::env::args().skip(1).map(std::fs::read).collect();
    let [Ok(first), Ok(second)] = &files[..] else {
        eprintln!("usage: pool FIRST SECOND, job files that can be read");
        return ExitCode::from(2);
    };
    let alone = [print_day("first alone", first), print_day("second alone", second)];

    let mut pooled = [0; 4096];
    let length = match ruhkevois::pool(first, second, &mut pooled) {
        Answer::Done { end, .. } => end as usize,
        Answer::Refused(number) => {
            println!("pooled: refused {number}");
            return ExitCode::from(1);
        }
        Answer::Unreachable => unreachable!("only earliest times are unreachable"),
    };
    let Some(end) = print_day("pooled", &pooled[..length]) else {
        return ExitCode::from(1);
    };
    if let [Some(first), Some(second)] = alone {
        println!("minutes saved: {}", first.max(second) as i32 - end as i32);
    }
    ExitCode::SUCCESS
}
