//! How a day went by the true lengths of its steps, in plain Rust and from document 02 alone.
use crate::plain::{self, Job};
use std::ops::RangeInclusive;

/// The lengths that a step of this action may have.
pub fn range(job: &Job, action: usize) -> RangeInclusive<u8> {
    job.shortest_length(action)..=job.actions[action].duration
}

/// Whether there is a length for each step of whole steps, and each is one that it may have.
pub fn within_ranges(job: &Job, plan: &[u8], lengths: &[u8]) -> bool {
    let within = |(step, length): (&[u8], &u8)| range(job, step[0] as usize).contains(length);
    lengths.len() == plan.len() / 3 && plan.chunks_exact(3).zip(lengths).all(within)
}

/// The true end and the peaks, or the refusal: 12 to 20 of the plan with the longest lengths, then 30.
pub fn true_day(job: &Job, plan: &[u8], lengths: &[u8]) -> Result<(u64, [u32; 4]), u64> {
    plain::check(job, plan)?;
    if !within_ranges(job, plan, lengths) {
        return Err(30);
    }
    let stop = |(step, length): (&[u8], &u8)| u16::from_le_bytes([step[1], step[2]]) as u64 + *length as u64;
    let end = plan.chunks_exact(3).zip(lengths).map(stop).max().unwrap_or(0);
    Ok((end, plain::peaks_lasting(job, plan, |step, _| lengths[step])))
}

/// What the checker answers where each step takes its true length in place of the longest.
pub fn check(job: &Job, plan: &[u8], lengths: &[u8]) -> Result<u64, u64> {
    plain::check_lasting(job, plan, |step, _| lengths[step])
}
