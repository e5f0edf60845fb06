//! Halfway sets through the exported call that plans a day in two halves, each compared with the plain version. A day
//! so planned passes the checker and doesn't end before the shortest whole day.
use crate::cases::{self, Random};
use crate::plain::{self, Action, Form, Job, Rule};
use crate::plain_halves::{self, Halves};
use crate::plain_join;
use crate::pools::Given;
use crate::ruhkevois::exported::ruhkevois_halves;
use crate::simple_planner::least_end;
use crate::tally::Tally;
use crate::{Case, Lent};

const DAYS: [&str; 6] = [
    "both halves empty",
    "an empty morning",
    "an empty afternoon",
    "both with steps",
    "later than the shortest whole day",
    "as early, with steps in both",
];
const LEFT: [&str; 3] =
    ["with a reserve and less of a store", "less than an action uses", "nothing of a store of which there was some"];
const REFUSED: [&str; 5] = [
    "22 for the morning",
    "22 for the afternoon",
    "22 for what the morning used up",
    "22 where the whole day has a plan",
    "34",
];

/// What was seen of days in two halves. Those of which a list is given up are not asked.
pub struct Seen {
    days: Tally,
    left: Tally,
    refused: Tally,
}

impl Seen {
    pub fn none() -> Seen {
        Seen {
            days: Tally::new("days in two halves", &DAYS),
            left: Tally::new("days in two halves, by what the morning leaves", &LEFT),
            refused: Tally::new("days in two halves refused by", &REFUSED),
        }
    }

    pub fn tallies(&self) -> [&Tally; 3] {
        [&self.days, &self.left, &self.refused]
    }

    fn halves(&mut self, job: &Job, halves: &Halves) {
        match (&halves.morning, &halves.afternoon) {
            (None, _) => self.no_plan(job, 0),
            (Some(morning), None) => {
                self.no_plan(job, 1);
                let with_all = Job { store: job.store, reserve: job.reserve, ..plain_halves::left(job, morning) };
                if least_end(&with_all).is_some() {
                    self.refused.add(2);
                }
            }
            (Some(morning), Some(afternoon)) => match plain_halves::day(job, halves) {
                Ok(day) => self.day(job, morning, afternoon, &day),
                Err(_) => self.refused.add(4),
            },
        }
    }

    fn no_plan(&mut self, job: &Job, half: usize) {
        self.refused.add(half);
        if least_end(job).is_some() {
            self.refused.add(3);
        }
    }

    fn day(&mut self, job: &Job, morning: &[u8], afternoon: &[u8], day: &[u8]) {
        self.days.add(2 * !morning.is_empty() as usize + !afternoon.is_empty() as usize);
        let is_later = least_end(job).is_some_and(|least| plain_join::end(job, day) > least as u64);
        if is_later {
            self.days.add(4);
        } else if !morning.is_empty() && !afternoon.is_empty() {
            self.days.add(5);
        }
        let left = plain_halves::left(job, morning);
        let used_up = |k: usize| left.store[k] < job.allowed(k);
        let kinds = [
            job.rule == Rule::Hourly && job.reserve > 0 && (0..job.stores).any(used_up),
            (0..job.stores).any(|k| job.actions.iter().any(|a| job.charged(a, k) > left.store[k])),
            (0..job.stores).any(|k| used_up(k) && left.store[k] == 0),
        ];
        (0..3).filter(|&k| kinds[k]).for_each(|k| self.left.add(k));
    }
}

/// A halfway set: facts that some plan has, or those of the start, the goal, any.
fn some_halfway(r: &mut Random, job: &Job) -> u64 {
    match r.below(8) {
        0 => job.start & r.next(),
        1 => job.goal,
        2 => job.goal & r.next(),
        3 => r.set(job.facts as u64, 3),
        _ => cases::reachable_goal(r, job),
    }
}

impl Case<'_> {
    fn ask_halves(&mut self, r: &mut Random, given: &Given, halfway: u64, room: usize, day: Result<Vec<u8>, u64>) {
        let mut lent = Lent::new(r, room);
        let (file, length, out, peaks) = (given.file.as_ptr(), given.file.len(), lent.out(), lent.peaks());
        let answer = unsafe { ruhkevois_halves(file, length, halfway, out, room, peaks) };
        self.same_plan("halves", answer, &lent, given.job, &day);
    }

    /// A day in two halves: what is promised of it holds. One of which the plain version gives up a list is not asked.
    fn in_halves(&mut self, r: &mut Random, job: &Job, halfway: u64) {
        let Some(halves) = plain_halves::halves(job, halfway) else { return };
        let day = plain_halves::day(job, &halves);
        if let Ok(day) = &day {
            let (end, checked, least) = (plain_join::end(job, day), plain::check(job, day), least_end(job));
            if checked != Ok(end) || least.is_none_or(|least| end < least as u64) {
                self.differs("day in two halves", format!("end {end}, checked {checked:?}, least {least:?}"));
            }
        }
        let (file, room) = (cases::file(job), 96 + r.below(20) as usize);
        let given = Given { file: &file, job: &plain::read(&file) };
        self.ask_halves(r, &given, halfway, room, day);
        self.seen.halves.halves(job, &halves);
    }

    /// One small day in many, or a day of trips, in two halves; of other files what is refused before any planning.
    pub fn halves(&mut self, r: &mut Random, file: &[u8], job: &Result<Job, u64>, is_small: bool) {
        let trips = if r.one_in(3) { Some(cases::trips(r)) } else { None };
        let small = trips.as_ref().or(job.as_ref().ok()).filter(|_| is_small && r.one_in(3));
        if let Some(small) = small {
            let halfway = some_halfway(r, small);
            return self.in_halves(r, small, halfway);
        }
        let (halfway, room) = (r.next(), [95, 96, r.below(120) as usize][r.below(3) as usize]);
        let halfway = if r.one_in(2) { halfway } else { halfway & halfway >> 32 & 7 };
        let refused = job.as_ref().map_or_else(|n| Some(*n), |job| plain_halves::refusal(job, halfway, room));
        if let Some(number) = refused {
            self.ask_halves(r, &Given { file, job }, halfway, room, Err(number));
        }
    }
}

/// A chain of so many actions of a minute: each turns a fact into the next, and uses this much of a store.
fn chain(count: u64, used: u32, store: u32) -> Job {
    let stores = [used, 0, 0, 0];
    let action =
        |n: u64| Action { duration: 1, needs: 1 << n, adds: 2 << n, deletes: 1 << n, stores, ..Action::default() };
    Job {
        form: Form::Five,
        rule: Rule::Hourly,
        reserve: 0,
        facts: count as u8 + 1,
        deadline: 40,
        start: 1,
        goal: 1 << count,
        pools: 2,
        stores: 1,
        pool: [1, 1, 0, 0],
        store: [store, 0, 0, 0],
        actions: (0..count).map(action).collect(),
        handovers: [1, 3, 0, 0],
        shortest: [1; 64],
    }
}

/// Chains of 32 and 33 steps, with some of them in the morning, by a deadline that just allows the day or is a minute
/// too early; and each reserve, with a store that just allows both halves or only one.
pub fn one_by_one(case: &mut Case) {
    let mut r = Random::new(0);
    let mut ask = |job: Job, halfway: u64| case.in_halves(&mut r, &job, halfway);
    for (count, morning) in [(32, 15), (32, 16), (33, 16), (33, 17), (33, 32)] {
        for deadline in [count as u16 + 2, count as u16 + 3, 40] {
            ask(Job { deadline, ..chain(count, 0, 0) }, 1 << morning);
        }
    }
    for reserve in 0..=50 {
        for store in [10, 19, 101] {
            let total = Job { reserve, ..chain(2, 1, store) }.allowed(0);
            for used in [total / 2, total / 2 + 1] {
                ask(Job { reserve, ..chain(2, used, store) }, 2);
            }
        }
    }
}
