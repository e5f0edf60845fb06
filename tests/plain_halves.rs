//! What planning a day in two halves gives, in plain Rust and from document 02 alone. For small jobs only.
use crate::cases;
use crate::plain::{self, Job};
use crate::plain_join;
use crate::plain_list;

/// How much of a store a plan has used up.
fn used(job: &Job, plan: &[u8], store: usize) -> u32 {
    plan.chunks_exact(3).map(|step| job.charged(&job.actions[step[0] as usize], store)).sum()
}

/// What the morning leaves: the facts at its end, and of each store the allowed total less what it used up. No more is
/// kept back of that.
pub fn left(job: &Job, morning: &[u8]) -> Job {
    let mut afternoon = Job { start: cases::held_at_end(job, morning), reserve: 0, ..cases::copy(job) };
    for k in 0..job.stores {
        afternoon.store[k] = job.allowed(k) - used(job, morning, k);
    }
    afternoon
}

/// The first plan of each half's list, where there is one. Without a morning there is no afternoon.
pub struct Halves {
    pub morning: Option<Vec<u8>>,
    pub afternoon: Option<Vec<u8>>,
}

/// The halves for a halfway set. None where a list is given up.
pub fn halves(job: &Job, halfway: u64) -> Option<Halves> {
    let first = |job: &Job| Some(plain_list::list(job, 1)?.into_iter().next());
    let morning = first(&Job { goal: halfway, ..cases::copy(job) })?;
    let afternoon = match &morning {
        Some(morning) => first(&left(job, morning))?,
        None => None,
    };
    Some(Halves { morning, afternoon })
}

/// The refusal that is found before any planning, if there is one: 24, 21.
pub fn refusal(job: &Job, halfway: u64, room: usize) -> Option<u64> {
    match room {
        _ if plain::foreign(job.facts, halfway) => Some(24),
        0..=95 => Some(21),
        _ => None,
    }
}

/// The joined day, or the refusal: 22, 34.
pub fn day(job: &Job, halves: &Halves) -> Result<Vec<u8>, u64> {
    let morning = halves.morning.as_ref().ok_or(22u64)?;
    let afternoon = halves.afternoon.as_ref().ok_or(22u64)?;
    plain_join::join(job, morning, afternoon, 96)
}
