//! Plans a job file and prints what the plan costs: 500 cents for a unit and quarter hour of the first pool, 20 for a
//! unit of the first store, and half as much again for pools in the evening. Usage: price FILE
#[allow(dead_code)]
mod ruhkevois;
use ruhkevois::{Answer, Price, Rates};
use std::process::ExitCode;

fn main() -> ExitCode {
    let Some(Ok(file)) = std::env::args().nth(1).map(std::fs::read) else {
        eprintln!("usage: price FILE, a job file that can be read");
        return ExitCode::from(2);
    };
    let rates = Rates { pools: [500, 0, 0, 0], stores: [20, 0, 0, 0], evening: 50 };
    let mut plan = [0; 96];
    let price = match ruhkevois::plan(&file, &mut plan) {
        Answer::Done { steps, .. } => ruhkevois::price(&file, &plan[..3 * steps as usize], &rates),
        Answer::Refused(number) => Price::Refused(number),
        Answer::Unreachable => unreachable!("only earliest times are unreachable"),
    };
    match price {
        Price::Cents(cents) => println!("price {cents}"),
        Price::Refused(number) => println!("refused {number}"),
    }
    if matches!(price, Price::Cents(_)) { ExitCode::SUCCESS } else { ExitCode::from(1) }
}
