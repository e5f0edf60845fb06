//! What replanning a begun day answers, in plain Rust and from document 02 alone.
use crate::plain::{self, Job};
use crate::simple_planner::least_end_begun;

/// What a caller asks for: the current plan, the minute, the new goal, and a slice of this length.
pub struct Asked {
    pub current: Vec<u8>,
    pub minute: u32,
    pub goal: u64,
    pub room: usize,
}

/// What is handed out: exactly the kept steps, or a plan that begins with them and has this end.
pub enum Day {
    Kept(u64),
    Planned(u64),
}

fn with_goal(job: &Job, goal: u64) -> Job {
    Job { goal, actions: job.actions.clone(), ..*job }
}

fn start(step: &[u8]) -> u32 {
    u16::from_le_bytes([step[1], step[2]]) as u32
}

/// The steps of a plan that start before the minute.
pub fn begun(plan: &[u8], minute: u32) -> Vec<u8> {
    plan.chunks_exact(3).filter(|step| start(step) < minute).flatten().copied().collect()
}

/// The steps of a plan, as start and action.
pub fn steps_of(plan: &[u8]) -> Vec<(u32, usize)> {
    plan.chunks_exact(3).map(|step| (start(step), step[0] as usize)).collect()
}

/// Whether the plan is accepted for the goal.
pub fn check(job: &Job, plan: &[u8], goal: u64) -> Result<u64, u64> {
    plain::check(&with_goal(job, goal), plan)
}

/// The day, or the refusal: 24, 12 to 19 of the current plan, 21, 35.
pub fn replan(job: &Job, asked: &Asked) -> Result<Day, u64> {
    if plain::foreign(job.facts, asked.goal) {
        return Err(24);
    }
    check(job, &asked.current, 0)?;
    if asked.room < 96 {
        return Err(21);
    }
    let kept = begun(&asked.current, asked.minute);
    if let Ok(end) = check(job, &kept, asked.goal) {
        return Ok(Day::Kept(end));
    }
    let least = least_end_begun(&with_goal(job, asked.goal), &steps_of(&kept), asked.minute);
    least.map_or(Err(35), |end| Ok(Day::Planned(end as u64)))
}
