//! The plain list of all the shortest days as a program: prints the plan at a place as the proved program does.
mod landmarks;
mod lister;
#[allow(dead_code)]
mod plain;
#[allow(dead_code)]
mod planner;
mod rows;
#[allow(dead_code)]
mod without;
use planner::Way;

const USAGE: &str = "usage: lists JOB PLACE";

fn main() {
    let arguments: Vec<_> = std::env::args().skip(1).collect();
    let [file, place] = &arguments[..] else {
        eprintln!("{USAGE}");
        std::process::exit(2);
    };
    let job = plain::read(&std::fs::read(file).expect("a job file")).expect("a job");
    let way = Way { nodes: Some(u64::MAX), ..Way::default() };
    let page = lister::page(&job, place.parse().expect("a place"), &way).expect("no limit");
    print!("{}", lister::printed(&job, &page));
}
