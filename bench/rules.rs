//! What the rules of the plain search buy: plans the days of a folder by one set of rules after another, and prints for
//! each how many days it plans, and its nodes as a part of the first row's.
mod known;
mod landmarks;
#[allow(dead_code)]
mod plain;
#[allow(dead_code)]
mod planner;
mod rows;
mod without;
use known::Known;
use planner::{plan, Way};
use without::Without;

/// A day is given up after so many nodes, so that the table is the same on every machine.
const LIMIT: u64 = 500_000;

/// A day that takes no more nodes by all rules is too easy to compare by.
const EASY: u64 = 2_000;

/// What is printed of each row, and the rules that it goes without. The last row goes by all rules.
const ROWS: [(&str, &str); 16] = [
    ("first rules", "carried clique longest pools steps stores"),
    ("clique", "carried longest pools steps stores"),
    ("longest action first", "carried clique pools steps stores"),
    ("minutes of pools", "carried clique longest steps stores"),
    ("shares of stores", "carried clique longest pools steps"),
    ("carried facts", "clique longest pools steps stores"),
    ("carried facts, longest action first", "clique pools steps stores"),
    ("the same and shares of stores", "clique pools steps"),
    ("the same and clique", "pools steps"),
    ("the same and minutes of pools", "steps"),
    ("all rules but clique", "clique"),
    ("all rules but longest action first", "longest"),
    ("all rules but minutes of pools", "pools"),
    ("all rules but shares of stores", "stores"),
    ("all rules but carried facts", "carried"),
    ("all rules", ""),
];

struct Day {
    name: String,
    file: Vec<u8>,
}

/// For each day the nodes, none where it is given up.
type Nodes = Vec<Option<u64>>;

fn days(folder: &str) -> Vec<Day> {
    let day = |path| Day { name: known::day(path), file: std::fs::read(path).expect("a job file") };
    known::job_files(folder).iter().map(|path| day(path)).collect()
}

/// The nodes of the days without these rules. Every end must be the known one.
fn nodes(days: &[Day], known: &Known, left_out: &str) -> Nodes {
    let without = Without::rules(left_out.split_whitespace()).expect("names of rules");
    let way = Way { without, nodes: Some(LIMIT) };
    let nodes_of = |day: &Day| {
        let (end, nodes) = plan(&day.file, &way);
        assert_eq!(known.mark(&day.name, &end), "", "{} ends at {end} without {left_out}", day.name);
        (end != "-").then_some(nodes)
    };
    days.iter().map(nodes_of).collect()
}

/// The nodes of each row, all rows at the same time.
fn all_rows(days: &[Day], known: &Known) -> Vec<Nodes> {
    std::thread::scope(|scope| {
        let started = ROWS.map(|(_, left_out)| scope.spawn(move || nodes(days, known, left_out)));
        started.map(|row| row.join().expect("every end is the known one")).into()
    })
}

/// The days to compare by: those that every row plans, but for the easy ones.
fn compared(rows: &[Nodes]) -> Vec<usize> {
    let all_rules = rows.last().expect("a row");
    let hard = |day: usize| all_rules[day].is_some_and(|nodes| EASY < nodes);
    (0..all_rules.len()).filter(|&day| hard(day) && rows.iter().all(|row| row[day].is_some())).collect()
}

/// The geometric mean of a row's nodes over these days, each of which it plans.
fn mean(row: &Nodes, days: &[usize]) -> f64 {
    let logarithms = days.iter().map(|&day| (row[day].expect("a planned day") as f64).ln());
    (logarithms.sum::<f64>() / days.len() as f64).exp()
}

fn main() {
    let folder = std::env::args().nth(1).expect("a folder of job files");
    let (days, known) = (days(&folder), Known::of(&folder));
    let rows = all_rows(&days, &known);
    let compared = compared(&rows);
    let whole = mean(&rows[0], &compared);
    println!("| rules | days planned | nodes |");
    println!("|---|---|---|");
    for ((name, _), row) in ROWS.iter().zip(&rows) {
        let planned = row.iter().flatten().count();
        println!("| {name} | {planned} | {:.2} |", mean(row, &compared) / whole);
    }
    println!("nodes: geometric means over {} of {} days", compared.len(), days.len());
}
