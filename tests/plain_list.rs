//! The list of all the shortest days, in plain Rust and from document 02 alone. For small jobs only.
use crate::plain::Job;
use crate::simple_planner::{a_minute_later, at_start, least_end, may_start, started, State};
use std::collections::HashSet;

/// Beginnings of plans that are looked at before a list is given up.
const MOST_LOOKED_AT: u64 = 2_000;

/// What the beginning of a plan has reached at a minute; and for each of its steps that have stopped the facts that
/// hold without it, as long as the other steps have all they need without it. Such a step can be dropped, as it seems
/// so far. Those still running can, too: what is without them shows when they stop.
#[derive(Clone, PartialEq, Eq, Hash)]
struct Beginning {
    state: State,
    without: Vec<u64>,
}

fn lacks(facts: u64, wanted: u64) -> bool {
    wanted & !facts != 0
}

impl Beginning {
    fn started(&self, job: &Job, i: usize) -> Beginning {
        let without = self.without.iter().copied().filter(|facts| !lacks(*facts, job.actions[i].needs));
        Beginning { state: started(job, &self.state, i), without: without.collect() }
    }

    /// A minute later; none where a step is done from which no fact is left that the day without it lacks: whatever
    /// follows, it can be dropped.
    fn a_minute_later(&self, job: &Job) -> Option<Beginning> {
        let ending = || self.state.running.iter().filter(|r| r.1 == 1).map(|r| r.0);
        let after = |facts: u64, without: Option<usize>| {
            let others = || ending().filter(|i| Some(*i) != without).map(|i| &job.actions[i]);
            facts & !others().fold(0, |set, a| set | a.deletes) | others().fold(0, |set, a| set | a.adds)
        };
        let stopped = ending().map(|i| after(self.state.facts, Some(i)));
        let mut without: Vec<u64> = self.without.iter().map(|facts| after(*facts, None)).chain(stopped).collect();
        without.sort();
        without.dedup();
        let state = a_minute_later(job, &self.state);
        without.iter().all(|facts| lacks(*facts, state.facts)).then_some(Beginning { state, without })
    }

    /// Whether the plan is listed where no step follows: it reaches the goal so many minutes later, and without any of
    /// its steps it doesn't.
    fn is_listed(&self, job: &Job, minutes: u16) -> bool {
        let last = (0..minutes).try_fold(self.clone(), |beginning, _| beginning.a_minute_later(job));
        last.is_some_and(|last| {
            let without = || last.without.iter().all(|facts| lacks(*facts, job.goal));
            last.state.running.is_empty() && !lacks(last.state.facts, job.goal) && without()
        })
    }
}

/// A walk through the plans in the order of the list: those found so far, of which no more than `most` are wanted; the
/// beginnings of none, with the minute and the first action that may follow; and how many beginnings were looked at.
struct Walk<'a> {
    job: &'a Job,
    least: u16,
    most: usize,
    plans: Vec<Vec<u8>>,
    barren: HashSet<(u16, usize, Beginning)>,
    looked_at: u64,
}

impl Walk<'_> {
    fn is_over(&self) -> bool {
        self.plans.len() >= self.most || self.looked_at > MOST_LOOKED_AT
    }

    /// Every listed plan that begins with these steps: the steps alone first, then by the next step's start and action.
    fn go_on(&mut self, plan: &mut Vec<u8>, minute: u16, first: usize, beginning: Beginning) {
        let key = (minute, first, beginning);
        if self.barren.contains(&key) {
            return;
        }
        self.looked_at += 1;
        let before = self.plans.len();
        if key.2.is_listed(self.job, self.least - minute) {
            self.plans.push(plan.clone());
        }
        self.followed(plan, minute, first, &key.2);
        if self.plans.len() == before && !self.is_over() {
            self.barren.insert(key);
        }
    }

    fn followed(&mut self, plan: &mut Vec<u8>, minute: u16, first: usize, beginning: &Beginning) {
        let mut now = Some(beginning.clone());
        for start in minute..self.least {
            let Some(beginning) = now else { return };
            for action in if start == minute { first } else { 0 }..self.job.actions.len() {
                if self.is_over() {
                    return;
                }
                if may_start(self.job, &beginning.state, action, self.least - start) {
                    plan.extend([action as u8, start as u8, (start >> 8) as u8]);
                    self.go_on(plan, start, action + 1, beginning.started(self.job, action));
                    plan.truncate(plan.len() - 3);
                }
            }
            now = beginning.a_minute_later(self.job);
        }
    }
}

/// The list, or its first plans, so many at most; empty where the job has no plan. None where it is given up.
pub fn list(job: &Job, most: usize) -> Option<Vec<Vec<u8>>> {
    let Some(least) = least_end(job) else { return Some(Vec::new()) };
    let mut walk = Walk { job, least, most, plans: Vec::new(), barren: HashSet::new(), looked_at: 0 };
    walk.go_on(&mut Vec::new(), 0, 0, Beginning { state: at_start(job), without: Vec::new() });
    (walk.looked_at <= MOST_LOOKED_AT).then_some(walk.plans)
}

/// The plan at a place, or the refusal: 21, 22, 28.
pub fn at(plans: &[Vec<u8>], place: u32, room: usize) -> Result<Vec<u8>, u64> {
    match plans.get(place as usize) {
        _ if room < 96 => Err(21),
        _ if plans.is_empty() => Err(22),
        None => Err(28),
        Some(plan) => Ok(plan.clone()),
    }
}
