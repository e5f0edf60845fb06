//! A simple planner: the least end of a plan, also of a day that has begun, by going through every state that plans
//! reach, minute by minute. For small jobs only. Written from the documents alone. The plain list goes by its states.
use crate::plain::{Action, Job};
use std::collections::HashSet;

const STEPS: u8 = 32;

/// The latest deadline of a short day. In a longer one, steps start only at the first free minute and where a step has
/// stopped or a share is free again: a step that starts elsewhere could start a minute earlier.
const SHORT: u16 = 40;

/// What plans have reached at a minute: the facts that hold, the running actions with the minutes left of each, the
/// amounts of pools that are handed over (those that are free in a minute, in two, and so on), the amounts of stores
/// used up, the number of steps, and whether steps start now.
#[derive(Clone, PartialEq, Eq, Hash)]
pub struct State {
    pub facts: u64,
    pub running: Vec<(usize, u8)>,
    handed_over: Vec<[u32; 4]>,
    used: [u32; 4],
    steps: u8,
    starts: bool,
}

fn clash(job: &Job, i: usize, k: usize) -> bool {
    let hinders = |a: &Action, b: &Action| a.deletes & (b.needs | b.adds) != 0;
    let (a, b) = (&job.actions[i], &job.actions[k]);
    i == k || hinders(a, b) || hinders(b, a)
}

/// Nothing has been started.
pub fn at_start(job: &Job) -> State {
    let longest = (0..job.pools).map(|k| job.handover(k)).max().unwrap_or(0);
    let handed_over = vec![[0; 4]; longest as usize];
    State { facts: job.start, running: Vec::new(), handed_over, used: [0; 4], steps: 0, starts: true }
}

/// Whether action i may start in this state, with this many minutes left of the day.
pub fn may_start(job: &Job, state: &State, i: usize, left: u16) -> bool {
    let a = &job.actions[i];
    let running = |k: usize| state.running.iter().map(|r| job.actions[r.0].pools[k]).sum::<u32>();
    let in_use = |k: usize| running(k) + state.handed_over.iter().map(|amounts| amounts[k]).sum::<u32>();
    a.needs & !state.facts == 0
        && a.duration as u16 <= left
        && state.steps < STEPS
        && state.running.iter().all(|r| !clash(job, i, r.0))
        && (0..job.pools).all(|k| in_use(k) + a.pools[k] <= job.pool[k])
        && (0..job.stores).all(|k| state.used[k] + job.charged(a, k) <= job.allowed(k))
}

pub fn started(job: &Job, state: &State, i: usize) -> State {
    let mut next = state.clone();
    next.running.push((i, job.actions[i].duration));
    for k in 0..job.stores {
        next.used[k] += job.charged(&job.actions[i], k);
    }
    next.steps += 1;
    next
}

/// What is handed over a minute later: also the shares of the steps ending then, each for the whole handover.
fn handed_over_later(job: &Job, handed_over: &[[u32; 4]], ending: &[&Action]) -> Vec<[u32; 4]> {
    let mut later: Vec<[u32; 4]> = handed_over.iter().skip(1).copied().chain([[0; 4]]).collect();
    for k in (0..job.pools).filter(|&k| job.handover(k) > 0) {
        later[job.handover(k) as usize - 1][k] = ending.iter().map(|a| a.pools[k]).sum();
    }
    later
}

/// The state a minute later: what the steps ending then delete goes, and what they add comes.
pub fn a_minute_later(job: &Job, state: &State) -> State {
    let mut next = state.clone();
    next.running.iter_mut().for_each(|r| r.1 -= 1);
    let ending: Vec<&Action> = next.running.iter().filter(|r| r.1 == 0).map(|r| &job.actions[r.0]).collect();
    next.handed_over = handed_over_later(job, &state.handed_over, &ending);
    let free_again = state.handed_over.first().is_some_and(|amounts| *amounts != [0; 4]);
    next.starts = job.deadline <= SHORT || !ending.is_empty() || free_again;
    next.facts &= !ending.iter().fold(0, |set, a| set | a.deletes);
    next.facts |= ending.iter().fold(0, |set, a| set | a.adds);
    next.running.retain(|r| r.1 > 0);
    next.running.sort();
    next
}

/// The state with all the steps started that are kept and start at this minute.
fn with_kept(job: &Job, state: &State, kept: &[(u32, usize)], minute: u32) -> State {
    let now = kept.iter().filter(|step| step.0 == minute);
    now.fold(state.clone(), |state, step| started(job, &state, step.1))
}

/// Every state that starting any of the actions from i on leads to, a minute later.
fn go_on(job: &Job, state: &State, i: usize, left: u16, into: &mut HashSet<State>) {
    if i == job.actions.len() {
        into.insert(a_minute_later(job, state));
        return;
    }
    go_on(job, state, i + 1, left, into);
    if may_start(job, state, i, left) {
        go_on(job, &started(job, state, i), i + 1, left, into);
    }
}

/// The least end of a plan that reaches the goal by the deadline, if there is one.
pub fn least_end(job: &Job) -> Option<u16> {
    least_end_begun(job, &[], 0)
}

/// The same where the day has begun: of the plans that have exactly these steps, as start and action, before the first
/// free minute. The steps keep every rule. Waiting changes nothing, so the first minute at which the goal holds, all of
/// them have been started and nothing runs is a plan's end; what is still handed over then doesn't matter.
pub fn least_end_begun(job: &Job, kept: &[(u32, usize)], first_free: u32) -> Option<u16> {
    let mut states = HashSet::from([at_start(job)]);
    for minute in 0..=job.deadline {
        let all_started = kept.iter().all(|step| step.0 < minute as u32);
        if all_started && states.iter().any(|s| s.running.is_empty() && job.goal & !s.facts == 0) {
            return Some(minute);
        }
        let mut next = HashSet::new();
        for state in &states {
            if (minute as u32) < first_free {
                next.insert(a_minute_later(job, &with_kept(job, state, kept, minute as u32)));
            } else if state.starts || minute as u32 == first_free {
                go_on(job, state, 0, job.deadline - minute, &mut next);
            } else {
                next.insert(a_minute_later(job, state));
            }
        }
        states = next;
    }
    None
}
