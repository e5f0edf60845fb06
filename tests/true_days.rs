//! True days through the exported call, each compared with the plain version. Where one is told, the document's promise
//! is tested too: the same starts pass the checker with the true lengths.
use crate::cases::{self, Random};
use crate::plain::{self, Action, Form, Job, Rule};
use crate::plain_true_day::{self, range, true_day, within_ranges};
use crate::ruhkevois::exported::ruhkevois_true_day;
use crate::{done, refused, Case, BEFORE};

/// What was seen: true days, those that ended earlier than planned, those with a lower peak, those in which one action
/// took different lengths; refusals by 30 for the number of lengths and for a length; and plans refused that would pass
/// with the true lengths.
#[derive(Default)]
pub struct Seen {
    days: u64,
    earlier: u64,
    lower: u64,
    unlike: u64,
    wrong_number: u64,
    outside: u64,
    too_long: u64,
}

impl Seen {
    fn day(&mut self, job: &Job, plan: &[u8], lengths: &[u8], day: (u64, [u32; 4])) {
        let steps = || plan.chunks_exact(3).zip(lengths);
        let differ = |x: (&[u8], &u8), y: (&[u8], &u8)| x.0[0] == y.0[0] && x.1 != y.1;
        self.days += 1;
        self.earlier += (Ok(day.0) != plain::check(job, plan)) as u64;
        self.lower += (day.1 != plain::peaks(job, plan)) as u64;
        self.unlike += steps().any(|x| steps().any(|y| differ(x, y))) as u64;
    }

    fn refused(&mut self, job: &Job, plan: &[u8], lengths: &[u8], number: u64) {
        let passes = || within_ranges(job, plan, lengths) && plain_true_day::check(job, plan, lengths).is_ok();
        match number {
            30 if lengths.len() == plan.len() / 3 => self.outside += 1,
            30 => self.wrong_number += 1,
            15.. => self.too_long += passes() as u64,
            _ => {}
        }
    }

    pub fn print(&self) {
        println!(
            "true days x {}: earlier ends x {}, lower peaks x {}, one action with different lengths x {}; refused for \
             the number of lengths x {}, for a length x {}, plans that would pass with the true lengths x {}",
            self.days, self.earlier, self.lower, self.unlike, self.wrong_number, self.outside, self.too_long
        );
    }
}

/// Lengths within the ranges: all at one end of them, or each anywhere. A step of no action has any length.
fn some_lengths(r: &mut Random, job: &Job, plan: &[u8]) -> Vec<u8> {
    let way = r.below(8);
    let length = |step: &[u8]| {
        let action = step[0] as usize;
        if action >= job.actions.len() {
            return r.next() as u8;
        }
        let (shortest, longest) = range(job, action).into_inner();
        let between = shortest + r.below((longest - shortest) as u64 + 1) as u8;
        [shortest, longest, [shortest, longest, between][r.below(3) as usize]][way.min(2) as usize]
    };
    plan.chunks(3).map(length).collect()
}

/// The same with a length just outside its range or with any other; or with none, one fewer or more, one for each byte
/// of the plan, or as many more as a count of one byte or two cannot tell.
fn spoilt(r: &mut Random, job: &Job, plan: &[u8], mut lengths: Vec<u8>) -> Vec<u8> {
    let count = lengths.len();
    let at = r.below(count.max(1) as u64) as usize;
    let action = plan.get(3 * at).map_or(usize::MAX, |action| *action as usize);
    if action < job.actions.len() && r.one_in(2) {
        let (shortest, longest) = range(job, action).into_inner();
        let any = r.next() as u8;
        lengths[at] = [shortest.wrapping_sub(1), longest.wrapping_add(1), 0, any][r.below(4) as usize];
    } else {
        let other = [0, count.saturating_sub(1), count + 1, 3 * count, count + 256, count + 65_536];
        let last = lengths.last().copied().unwrap_or(1);
        lengths.resize(other[r.below(6) as usize], last);
    }
    lengths
}

impl Case<'_> {
    fn true_day(&mut self, file: &[u8], job: &Result<Job, u64>, plan: &[u8], lengths: &[u8]) {
        let mut peaks = BEFORE;
        let lent = peaks[1..5].as_mut_ptr();
        let (given, count) = (lengths.as_ptr(), lengths.len());
        let answer =
            unsafe { ruhkevois_true_day(file.as_ptr(), file.len(), plan.as_ptr(), plan.len(), given, count, lent) };
        let day = job.as_ref().map_err(|n| *n).and_then(|job| true_day(job, plan, lengths));
        self.same("true day", answer, day.map_or_else(refused, |day| done(day.0, plan.len() as u64 / 3)));
        self.same_array("peaks of the true day", peaks, day.ok().map(|day| day.1));
        match (job, day) {
            (Ok(job), Ok(day)) => {
                self.passes(job, plan, lengths, day.0);
                self.seen.true_days.day(job, plan, lengths, day);
            }
            (Ok(job), Err(number)) => self.seen.true_days.refused(job, plan, lengths, number),
            (Err(_), _) => {}
        }
    }

    /// The same starts pass the checker with the true lengths, with this end, and it is not after the planned one.
    fn passes(&self, job: &Job, plan: &[u8], lengths: &[u8], end: u64) {
        let checked = plain_true_day::check(job, plan, lengths);
        let planned = plain::check(job, plan);
        if checked != Ok(end) || planned.is_ok_and(|planned| end > planned) {
            self.differs("end of a true day", format!("got {end}, checked {checked:?}, planned {planned:?}"));
        }
    }

    /// The plan with lengths within the ranges, and with lengths that are not; with any where the file is refused.
    pub fn true_days(&mut self, r: &mut Random, file: &[u8], job: &Result<Job, u64>, plan: &[u8]) {
        let Ok(of_file) = job else {
            let lengths = r.bytes(plan.len() / 3);
            return self.true_day(file, job, plan, &lengths);
        };
        let lengths = some_lengths(r, of_file, plan);
        self.true_day(file, job, plan, &lengths);
        let lengths = spoilt(r, of_file, plan, lengths);
        self.true_day(file, job, plan, &lengths);
    }
}

/// Three observations under trees, of 40 to 70, 71 and 72 minutes, with a receiver each of two. The longest lengths use
/// all the batteries that the hourly rule allows.
fn under_trees(form: Form, rule: Rule) -> Job {
    let (pools, stores) = ([1, 0, 0, 0], [1, 0, 0, 0]);
    let action = |n: u8| Action { duration: 70 + n, adds: 1 << n, pools, stores, ..Action::default() };
    Job {
        form,
        rule,
        reserve: 50,
        facts: 3,
        deadline: 212,
        start: 0,
        goal: 7,
        pools: 1,
        stores: 1,
        pool: [2, 0, 0, 0],
        store: [12, 0, 0, 0],
        actions: (0..3).map(action).collect(),
        handovers: [5, 0, 0, 0],
        shortest: [40; 64],
    }
}

/// A day in each form and under both rules, gone through one by one: every length of each step, and every number of
/// lengths up to 600. The first step may stop before the second starts or after it.
pub fn one_by_one(case: &mut Case) {
    let (plan, longest) = ([0, 0, 0, 1, 60, 0, 2, 140, 0], [70, 71, 72]);
    let forms = [Form::Four, Form::Five, Form::Six];
    for job in forms.into_iter().flat_map(|form| Rule::BOTH.map(|rule| under_trees(form, rule))) {
        let file = cases::file(&job);
        let job = plain::read(&file);
        for step in 0..3 {
            for length in 0..=255 {
                let mut lengths = longest;
                lengths[step] = length;
                case.true_day(&file, &job, &plan, &lengths);
            }
        }
        for count in 0..=600 {
            let lengths: Vec<u8> = longest.into_iter().cycle().take(count).collect();
            case.true_day(&file, &job, &plan, &lengths);
        }
    }
}
