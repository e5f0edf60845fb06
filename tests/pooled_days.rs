//! Pooled days of two small jobs, planned in both orders: they end at the same minute, and no later than the later of
//! both alone.
use crate::cases::{self, Random};
use crate::pairs;
use crate::plain::{self, Job};
use crate::ruhkevois::{self, Answer};
use crate::tally::Tally;
use crate::{refused, small_job, Case};

const DAYS: [&str; 4] =
    ["earlier than the later alone", "as early", "with a plan that one alone lacks", "without a plan in both orders"];

pub fn none_seen() -> Tally {
    Tally::new("pooled days", &DAYS)
}

/// The end of a day and its number of steps.
#[derive(Clone, Copy)]
struct Day {
    end: u64,
    steps: u64,
}

/// A job that can be pooled with this one. A day of hours gets another: beside one of minutes the search may take long.
fn small_partner(r: &mut Random, other: &Job) -> Job {
    let job = match r.below(2) {
        _ if other.deadline > 60 => cases::hours(r),
        0 => cases::errands(r),
        _ => small_job(r),
    };
    pairs::alike(r, job, other)
}

impl Case<'_> {
    /// The day that is planned for a file, if there is one: its plan is accepted with the end that is told.
    fn day(&mut self, r: &mut Random, file: &[u8]) -> Option<Day> {
        let job = plain::read(file);
        let (answer, plan) = self.ask_plan(r, file, &job, 96);
        let Some(plan) = plan else {
            self.same("plan", answer, refused(22));
            return None;
        };
        self.check(file, &job, &plan);
        Some(Day { end: answer >> 16 & 0xffff_ffff, steps: answer >> 48 })
    }

    /// The same for two files that can be pooled.
    fn pooled_day(&mut self, r: &mut Random, first: &[u8], second: &[u8]) -> Option<Day> {
        let mut out = [0; 4096];
        let Answer::Done { end, .. } = ruhkevois::pool(first, second, &mut out) else {
            self.differs("pool", "refused".to_string());
        };
        self.day(r, &out[..end as usize])
    }

    /// A day alone, with another, and with that one in the other order.
    pub fn pooled_days(&mut self, r: &mut Random, file: &[u8], job: &Job) {
        let other = cases::file(&small_partner(r, job));
        let alone = self.day(r, file).zip(self.day(r, &other));
        let pooled = self.pooled_day(r, file, &other).map(|day| day.end);
        let in_other_order = self.pooled_day(r, &other, file).map(|day| day.end);
        if pooled != in_other_order {
            self.differs("pooled day", format!("end {pooled:?}, in the other order {in_other_order:?}"));
        }
        if alone.is_some_and(|days| days.0.steps + days.1.steps > 32) {
            return; // nothing more is promised
        }
        let bound = alone.map(|days| days.0.end.max(days.1.end));
        let kind = match (pooled, bound) {
            (Some(end), Some(bound)) if end < bound => 0,
            (Some(end), Some(bound)) if end == bound => 1,
            (Some(_), None) => 2,
            (None, None) => 3,
            _ => self.differs("pooled day", format!("end {pooled:?}, the later alone {bound:?}")),
        };
        self.seen.pooled_days.add(kind);
    }
}
