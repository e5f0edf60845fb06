//! What joining two plans gives, in plain Rust and from document 02 alone.
use crate::plain::{self, Job};

/// The most steps of a plan.
pub const STEPS: usize = 32;

/// The refusal of a plan by 12 to 15, if there is one; the checks behind those are not asked.
pub fn refusal(job: &Job, plan: &[u8]) -> Option<u64> {
    plain::check(job, plan).err().filter(|number| *number <= 15)
}

fn start(step: &[u8]) -> u64 {
    u16::from_le_bytes([step[1], step[2]]) as u64
}

/// The end of a plan that passes 12 to 15.
pub fn end(job: &Job, plan: &[u8]) -> u64 {
    let stop = |step: &[u8]| start(step) + job.actions[step[0] as usize].duration as u64;
    plan.chunks_exact(3).map(stop).max().unwrap_or(0)
}

/// The largest handover, over all the job's pools.
pub fn largest_handover(job: &Job) -> u64 {
    (0..job.pools).map(|k| job.handover(k) as u64).max().unwrap_or(0)
}

/// The steps so many minutes later.
fn later(plan: &[u8], minutes: u64) -> Vec<u8> {
    let later = |step: &[u8]| {
        let [low, high] = ((start(step) + minutes) as u16).to_le_bytes();
        [step[0], low, high]
    };
    plan.chunks_exact(3).flat_map(later).collect()
}

/// Both halves one after the other, however long that is.
pub fn joined(job: &Job, first: &[u8], second: &[u8]) -> Vec<u8> {
    match (first, second) {
        ([], _) => second.to_vec(),
        (_, []) => first.to_vec(),
        _ => [first.to_vec(), later(second, end(job, first) + largest_handover(job))].concat(),
    }
}

/// The reasons for 34 that hold: too many steps, an end after the deadline.
pub fn reasons(job: &Job, joined: &[u8]) -> [bool; 2] {
    [joined.len() > 3 * STEPS, end(job, joined) > job.deadline as u64]
}

/// The joined plan, or the refusal: 12 to 15 of the first, of the second, 21, 34.
pub fn join(job: &Job, first: &[u8], second: &[u8], room: usize) -> Result<Vec<u8>, u64> {
    if let Some(number) = refusal(job, first).or(refusal(job, second)) {
        return Err(number);
    }
    if room < 96 {
        return Err(21);
    }
    let joined = joined(job, first, second);
    if reasons(job, &joined).contains(&true) { Err(34) } else { Ok(joined) }
}
