//! Random plans through the exported call that joins two, each pair compared with the plain version.
use crate::cases::{self, Random};
use crate::plain::{self, Job};
use crate::plain_join::{self, end, largest_handover, refusal};
use crate::pools::Given;
use crate::ruhkevois::exported::ruhkevois_join;
use crate::tally::Tally;
use crate::{Case, Lent};
use std::collections::BTreeSet;

const REFUSED: [&str; 9] = [
    "the first by 12",
    "the first by 13",
    "the first by 14",
    "the first by 15",
    "the second by 12",
    "the second by 13",
    "the second by 14",
    "the second by 15",
    "both by different numbers",
];
const ROOMS: [&str; 4] = ["95", "fewer", "96", "more"];
const TOO_LONG: [&str; 3] = ["for the steps alone", "for the end alone", "for both"];
const LIMITS: [&str; 4] = ["32 steps", "33 steps alone", "an end at the deadline", "a minute later alone"];
const HALVES: [&str; 4] = ["both empty", "the first empty", "the second empty", "none empty"];
const CHECKED: [&str; 6] = ["accepted", "16", "17", "18", "19", "20"];

/// What was seen of joins.
pub struct Seen {
    refused: Tally,
    rooms: Tally,
    too_long: Tally,
    limits: Tally,
    halves: Tally,
    checked: Tally,
}

impl Seen {
    pub fn none() -> Seen {
        Seen {
            refused: Tally::new("plans to join that are refused", &REFUSED),
            rooms: Tally::new("slices for joined plans, by bytes", &ROOMS),
            too_long: Tally::new("joins refused by 34", &TOO_LONG),
            limits: Tally::new("joins at a limit", &LIMITS),
            halves: Tally::new("joined plans, by their halves", &HALVES),
            checked: Tally::new("joined plans, by what the checker says of them", &CHECKED),
        }
    }

    pub fn tallies(&self) -> [&Tally; 6] {
        [&self.refused, &self.rooms, &self.too_long, &self.limits, &self.halves, &self.checked]
    }

    fn pair(&mut self, job: &Job, first: &[u8], second: &[u8], room: usize) {
        match (refusal(job, first), refusal(job, second)) {
            (Some(first), Some(second)) if first != second => self.refused.add(8),
            (Some(number), _) => self.refused.add(number as usize - 12),
            (None, Some(number)) => self.refused.add(number as usize - 8),
            (None, None) => {
                self.rooms.add(if room < 96 { (room < 95) as usize } else { 2 + (room > 96) as usize });
                self.joined(job, first, second);
            }
        }
    }

    fn joined(&mut self, job: &Job, first: &[u8], second: &[u8]) {
        let joined = plain_join::joined(job, first, second);
        let (steps, end) = (joined.len() / 3, end(job, &joined));
        let both = !first.is_empty() && !second.is_empty();
        let reasons = plain_join::reasons(job, &joined);
        let at_limits = [
            both && steps == 32,
            steps == 33 && !reasons[1],
            both && end == job.deadline as u64,
            !reasons[0] && end == job.deadline as u64 + 1,
        ];
        (0..4).filter(|&k| at_limits[k]).for_each(|k| self.limits.add(k));
        match reasons {
            [false, false] => {
                self.halves.add(2 * !first.is_empty() as usize + !second.is_empty() as usize);
                self.checked.add(plain::check(job, &joined).map_or_else(|number| number as usize - 15, |_| 0));
            }
            [steps, end] => self.too_long.add(steps as usize + 2 * end as usize - 1),
        }
    }
}

/// So many steps at most, in order, of which the last to stop does so at this minute, where an action is short enough.
fn rising(r: &mut Random, job: &Job, count: u64, end: u64) -> Vec<u8> {
    let lasts = |n: u8| job.actions[n as usize].duration as u64;
    let short: Vec<u8> = (0..job.actions.len() as u8).filter(|&n| lasts(n) <= end).collect();
    let mut steps = BTreeSet::new();
    for _ in 0..if short.is_empty() { 0 } else { 3 * count } {
        let action = short[r.below(short.len() as u64) as usize];
        let latest = end - lasts(action);
        if (steps.len() as u64) < count {
            steps.insert((if steps.is_empty() { latest } else { r.below(latest + 1) } as u16, action));
        }
    }
    cases::bytes_of(&steps.into_iter().collect::<Vec<_>>())
}

/// Two plans that together have about 32 steps, or end about the deadline, or both.
fn about_a_limit(r: &mut Random, job: &Job) -> [Vec<u8>; 2] {
    let deadline = job.deadline as u64;
    let (count, minute) = (r.below(33), r.below(deadline + 1));
    let first = rising(r, job, count, minute);
    let steps = first.len() as u64 / 3;
    let left = deadline.saturating_sub(end(job, &first) + largest_handover(job));
    let minute = [left, left + 1, r.below(left + 2), r.below(deadline + 1)][r.below(4) as usize];
    let count = [32 - steps, 33 - steps, r.below(33 - steps), r.below(33)][r.below(4) as usize];
    let second = rising(r, job, count.min(32), minute.min(deadline));
    [first, second]
}

/// A plan that passes 12 to 15, of no more than so much of 32 steps and of the day: mostly any steps.
pub fn some_part(r: &mut Random, job: &Job, share: u64) -> Vec<u8> {
    let (count, minute) = (r.below(32 / share + 1), r.below(job.deadline as u64 / share + 1));
    match r.below(8) {
        0 => Vec::new(),
        1 => cases::grown_plan(r, job).0,
        _ => rising(r, job, count, minute),
    }
}

/// Two plans of which either may be refused.
fn some_pair(r: &mut Random, job: &Job) -> [Vec<u8>; 2] {
    let parts = |r: &mut Random| [some_part(r, job, 2), some_part(r, job, 2)];
    let refused = |r: &mut Random, plan: Vec<u8>| match r.below(3) {
        0 => plan,
        1 => cases::damage_plan(r, plan),
        _ => cases::any_plan(r, job),
    };
    match r.below(4) {
        0 => parts(r).map(|plan| refused(r, plan)),
        1 => parts(r),
        _ => about_a_limit(r, job),
    }
}

fn some_room(r: &mut Random) -> usize {
    match r.below(16) {
        0 => 95,
        1 => r.below(95) as usize,
        2..=8 => 96,
        _ => 97 + r.below(40) as usize,
    }
}

pub fn ask(file: &[u8], first: &[u8], second: &[u8], lent: &mut Lent) -> u64 {
    let (first, first_bytes, second, second_bytes) = (first.as_ptr(), first.len(), second.as_ptr(), second.len());
    let (out, room, peaks) = (lent.out(), lent.room(), lent.peaks());
    unsafe { ruhkevois_join(file.as_ptr(), file.len(), first, first_bytes, second, second_bytes, out, room, peaks) }
}

impl Case<'_> {
    /// Into a slice of this length; gives the joined plan, or the refusal.
    pub fn join(&mut self, r: &mut Random, given: &Given, plans: [&[u8]; 2], room: usize) -> Result<Vec<u8>, u64> {
        let mut lent = Lent::new(r, room);
        let answer = ask(given.file, plans[0], plans[1], &mut lent);
        let joined = given.job.as_ref().map_err(|n| *n);
        let joined = joined.and_then(|job| plain_join::join(job, plans[0], plans[1], room));
        self.same_plan("join", answer, &lent, given.job, &joined);
        if let Ok(job) = given.job {
            self.seen.joins.pair(job, plans[0], plans[1], room);
        }
        joined
    }

    /// Any two plans; any bytes where the file is refused.
    pub fn joins(&mut self, r: &mut Random, file: &[u8], job: &Result<Job, u64>) {
        let pair = match job {
            Ok(job) => some_pair(r, job),
            Err(_) => [r.bytes(3), r.bytes(4)],
        };
        let room = some_room(r);
        let _ = self.join(r, &Given { file, job }, [&pair[0], &pair[1]], room);
    }
}
