//! Plans a job file in two halves, with lunch at the base in between: at halftime the van is back (fact 0) and the
//! first point is observed (fact 2). Says what lunch costs against the shortest day, then joins breakfast, a step of
//! action 4, to the front and checks the whole day. Usage: halves FILE
#[allow(dead_code)]
mod ruhkevois;
use ruhkevois::Answer;
use std::process::ExitCode;

/// Prints the answer in a line, with action@minute for each step; gives the end and the plan's bytes, where there is a
/// day.
fn print_day<'a>(what: &str, answer: Answer, plan: &'a [u8]) -> Option<(u32, &'a [u8])> {
    match answer {
        Answer::Done { end, steps, .. } => {
            let plan = &plan[..3 * steps as usize];
            print!("{what}: end {end}");
            for step in plan.chunks_exact(3) {
                print!(" {}@{}", step[0], u16::from_le_bytes([step[1], step[2]]));
            }
            println!();
            Some((end, plan))
        }
        Answer::Refused(number) => {
            println!("{what}: refused {number}");
            None
        }
        Answer::Unreachable => unreachable!("only earliest times are unreachable"),
    }
}

/// The day in two halves, then with breakfast; nothing where one of them is refused.
fn plan_halves(file: &[u8]) -> Option<()> {
    let halfway = 1 << 0 | 1 << 2;
    let breakfast = [4, 0, 0];
    let mut plan = [0; 96];
    let (shortest, _) = print_day("whole day", ruhkevois::list(file, 0, &mut plan), &plan)?;
    let answer = ruhkevois::halves(file, halfway, &mut plan);
    let (end, halves) = print_day("two halves", answer, &plan)?;
    println!("lunch costs {} minutes", end - shortest);

    let mut joined = [0; 96];
    let answer = ruhkevois::join(file, &breakfast, halves, &mut joined);
    let (_, joined) = print_day("with breakfast", answer, &joined)?;
    print_day("checked", ruhkevois::check(file, joined), joined)?;
    Some(())
}

fn main() -> ExitCode {
    let Some(Ok(file)) = std::env::args().nth(1).map(std::fs::read) else {
        eprintln!("usage: halves FILE, a job file that can be read");
        return ExitCode::from(2);
    };
    if plan_halves(&file).is_some() { ExitCode::SUCCESS } else { ExitCode::from(1) }
}
