//! The actions of a job as the search reads them.
use crate::plain::{Action, Job};

/// An action in the tables of the search.
pub struct Row {
    pub needs: u64,
    pub adds: u64,
    pub deletes: u64,
    pub clashes: u64, // the actions that clash with it, by their numbers
    pub duration: u32,
    pub pools: [u64; 4],
    pub stores: [u64; 4], // what a step uses up
}

fn hinders(a: &Action, b: &Action) -> bool {
    a.deletes & (b.needs | b.adds) != 0
}

/// The set of the actions that clash with action i.
fn clash_set(job: &Job, i: usize) -> u64 {
    let a = &job.actions[i];
    let clash = |j: usize, b: &Action| i == j || hinders(a, b) || hinders(b, a);
    job.actions.iter().enumerate().filter(|&(j, b)| clash(j, b)).fold(0, |set, (j, _)| set | 1 << j)
}

/// The row of action i.
fn row(job: &Job, i: usize) -> Row {
    let a = &job.actions[i];
    Row {
        needs: a.needs,
        adds: a.adds,
        deletes: a.deletes,
        clashes: clash_set(job, i),
        duration: a.duration as u32,
        pools: a.pools.map(u64::from),
        stores: std::array::from_fn(|k| job.charged(a, k) as u64),
    }
}

/// The row of each action.
pub fn rows(job: &Job) -> Vec<Row> {
    (0..job.actions.len()).map(|i| row(job, i)).collect()
}

/// Whether a sum with its amount is over its limit.
pub fn exceeds(limits: &[u32; 4], sums: &[u64; 4], amounts: &[u64; 4]) -> bool {
    (0..4).any(|k| (limits[k] as u64) < sums[k] + amounts[k])
}
