//! Random replans through the exported call, each compared with the plain version.
use crate::cases::{self, Random};
use crate::plain::Job;
use crate::plain_replan::{self, Asked, Day};
use crate::ruhkevois::exported::ruhkevois_replan;
use crate::{done, expected, refused, Case, Lent};

/// The kinds of minutes: a minute is of the first kind that fits.
const MINUTES: [&str; 8] =
    ["0", "1", "a start", "a stop", "the deadline", "before it", "after it", "65,536 or more"];

/// What was seen: refusals by number; days of the kept steps alone and longer ones, by the number of kept steps; the
/// longer ones by the number of added steps; minutes by kind.
pub struct Seen {
    refusals: [u64; 36],
    alone: [u64; 33],
    longer: [u64; 33],
    added: [u64; 33],
    minutes: [u64; 8],
}

impl Seen {
    pub fn none() -> Seen {
        Seen { refusals: [0; 36], alone: [0; 33], longer: [0; 33], added: [0; 33], minutes: [0; 8] }
    }

    pub fn print(&self) {
        let counts = |of: &[u64]| {
            let seen = (0..of.len()).filter(|&n| of[n] > 0);
            seen.map(|n| format!("{n} x {}", of[n])).collect::<Vec<String>>().join(", ")
        };
        let minutes: Vec<String> = (0..8).map(|k| format!("{} x {}", MINUTES[k], self.minutes[k])).collect();
        println!("replans refused, by number: {}", counts(&self.refusals));
        println!("days of the kept steps alone, by these: {}", counts(&self.alone));
        println!("days with steps added, by the kept ones: {}", counts(&self.longer));
        println!("days with steps added, by the added ones: {}", counts(&self.added));
        println!("minutes of replans: {}", minutes.join(", "));
    }
}

/// The start and the stop of each step.
fn times(job: &Job, plan: &[u8]) -> Vec<(u32, u32)> {
    let of_step = |step: &[u8]| {
        let start = u16::from_le_bytes([step[1], step[2]]) as u32;
        (start, start + job.actions.get(step[0] as usize).map_or(0, |action| action.duration) as u32)
    };
    plan.chunks_exact(3).map(of_step).collect()
}

fn kind_of_minute(job: &Job, asked: &Asked) -> usize {
    let (minute, deadline) = (asked.minute, job.deadline as u32);
    let times = times(job, &asked.current);
    match minute {
        0 | 1 => minute as usize,
        _ if times.iter().any(|step| step.0 == minute) => 2,
        _ if times.iter().any(|step| step.1 == minute) => 3,
        _ if minute == deadline => 4,
        _ if minute < deadline => 5,
        _ if minute < 65_536 => 6,
        _ => 7,
    }
}

/// A minute past which nothing can be added: at the deadline, just behind it, or far behind.
fn minute_from_deadline(r: &mut Random, job: &Job) -> u32 {
    let deadline = job.deadline as u32;
    match r.below(6) {
        0 | 1 => deadline,
        2 => deadline + 1,
        3 => 65_536,
        4 => 65_536 + r.below(deadline as u64 + 1) as u32,
        _ => deadline.max(r.next() as u32),
    }
}

/// A minute about a step of the plan, which keeps the rules; or any minute.
fn some_minute(r: &mut Random, job: &Job, plan: &[u8]) -> u32 {
    let times = times(job, plan);
    if times.is_empty() || r.one_in(3) {
        let any = [0, 1, minute_from_deadline(r, job), r.below(job.deadline as u64 + 1) as u32];
        return any[r.below(4) as usize];
    }
    let (start, stop) = times[r.below(times.len() as u64) as usize];
    [start, start + 1, stop][r.below(3) as usize]
}

/// The same with a foreign fact in the goal, a current plan that is refused, too short a slice, or several of them.
fn spoilt(r: &mut Random, job: &Job, mut asked: Asked) -> Asked {
    if r.one_in(2) {
        asked.goal = r.next();
    }
    match r.below(4) {
        0 => asked.current = cases::damage_plan(r, asked.current),
        1 => asked.current = cases::any_plan(r, job),
        _ => {}
    }
    if r.one_in(2) {
        asked.room = r.below(96) as usize;
    }
    asked
}

/// A goal for a day with these kept steps: facts that another plan has and they lack, the job's own goal, or any facts.
fn some_goal(r: &mut Random, job: &Job, kept: &[u8]) -> u64 {
    match r.below(8) {
        0 => job.goal,
        1 | 2 => r.set(job.facts as u64, 3),
        _ => {
            let met = cases::held_at_end(job, kept);
            let others = [cases::grown_plan(r, job).1, cases::grown_plan(r, job).1, cases::grown_plan(r, job).1];
            let new = others.map(|held| held & !met).into_iter().max_by_key(|set| set.count_ones()).unwrap_or(0);
            if r.one_in(2) { new } else { new & r.next() }
        }
    }
}

/// A small day that has begun, by the plan handed out for it or by a longer one that keeps the rules.
fn some_asked(r: &mut Random, job: &Job, planned: Option<Vec<u8>>) -> Asked {
    let grown = [cases::grown_plan(r, job).0, cases::grown_plan(r, job).0, cases::grown_plan(r, job).0];
    let longest = grown.into_iter().max_by_key(|plan| plan.len()).unwrap_or_default();
    let current = planned.filter(|_| r.one_in(2)).unwrap_or(longest);
    let minute = some_minute(r, job, &current);
    let goal = some_goal(r, job, &plain_replan::begun(&current, minute));
    let asked = Asked { current, minute, goal, room: 96 + r.below(20) as usize };
    if r.one_in(4) { spoilt(r, job, asked) } else { asked }
}

impl Case<'_> {
    fn replan(&mut self, r: &mut Random, file: &[u8], job: &Result<Job, u64>, asked: &Asked) {
        let mut lent = Lent::new(r, asked.room);
        let (plan, bytes) = (asked.current.as_ptr(), asked.current.len());
        let (out, room, peaks) = (lent.out(), asked.room, lent.peaks());
        let answer = unsafe {
            ruhkevois_replan(file.as_ptr(), file.len(), plan, bytes, asked.minute, asked.goal, out, room, peaks)
        };
        let day = job.as_ref().map_err(|n| *n).and_then(|job| plain_replan::replan(job, asked));
        let kept = plain_replan::begun(&asked.current, asked.minute);
        let want = match day {
            Err(number) => refused(number),
            Ok(Day::Kept(end)) => done(end, kept.len() as u64 / 3),
            Ok(Day::Planned(end)) => done(end, answer >> 48),
        };
        self.same("replan", answer, want);
        let plan = self.handed_out("replan", &lent, answer, job);
        if let (Ok(job), Some(plan)) = (job, plan) {
            self.same_day(job, asked, &kept, &plan, answer >> 16 & 0xffff_ffff);
        }
        self.saw_replan(job, asked, &day, kept.len() / 3, (answer >> 48) as usize);
    }

    /// The plan handed out keeps the begun steps and no others before the minute, and is accepted with this end.
    fn same_day(&mut self, job: &Job, asked: &Asked, kept: &[u8], plan: &[u8], end: u64) {
        let begun = plain_replan::begun(plan, asked.minute);
        if begun != kept {
            self.differs("kept steps", format!("got {begun:?}, expected {kept:?}"));
        }
        let checked = plain_replan::check(job, plan, asked.goal);
        self.same("end of the replanned day", expected(checked), expected(Ok(end)));
    }

    fn saw_replan(&mut self, job: &Result<Job, u64>, asked: &Asked, day: &Result<Day, u64>, kept: usize, steps: usize) {
        let seen = &mut self.seen.replans;
        if let Ok(job) = job {
            seen.minutes[kind_of_minute(job, asked)] += 1;
        }
        match day {
            Err(number) => seen.refusals[*number as usize] += 1,
            Ok(Day::Kept(_)) => seen.alone[kept] += 1,
            Ok(Day::Planned(_)) => {
                seen.longer[kept] += 1;
                seen.added[steps - kept] += 1;
            }
        }
        if let (Ok(job), Ok(Day::Planned(_))) = (job, day) {
            let kept = plain_replan::begun(&asked.current, asked.minute);
            let steps = plain_replan::steps_of(&kept);
            self.seen.handovers.replanned(job, &steps, asked.minute);
            self.seen.season.replanned(job, &steps);
        }
    }
}

/// Four replans of a small job, or of a file that is refused; `planned` is the plan that was handed out for it.
pub fn small_days(case: &mut Case, r: &mut Random, file: &[u8], job: &Result<Job, u64>, planned: Option<Vec<u8>>) {
    for _ in 0..4 {
        let asked = match job {
            Ok(job) => some_asked(r, job, planned.clone()),
            Err(_) => Asked { current: r.bytes(3), minute: r.next() as u32, goal: r.next(), room: 90 },
        };
        case.replan(r, file, job, &asked);
    }
}

/// A replan of a job of any size from its deadline on, where no search is needed; the plan has these facts at its end.
pub fn over_days(case: &mut Case, r: &mut Random, file: &[u8], job: &Result<Job, u64>, plan: &[u8], held: u64) {
    let Ok(of_file) = job else {
        return;
    };
    let goal = if r.one_in(4) { r.set(of_file.facts as u64, 3) } else { held & r.next() };
    let (minute, room) = (minute_from_deadline(r, of_file), 96 + r.below(20) as usize);
    let asked = Asked { current: plan.to_vec(), minute, goal, room };
    let asked = if r.one_in(4) { spoilt(r, of_file, asked) } else { asked };
    case.replan(r, file, job, &asked);
}
