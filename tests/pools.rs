//! Pairs of files through the exported call that pools them, each in both orders and compared with the plain version.
use crate::cases::{self, Random};
use crate::pairs::{self, AMOUNT, COUNT};
use crate::plain::{self, Job, Rule};
use crate::plain_pool::{self, REASONS};
use crate::ruhkevois::exported::ruhkevois_pool;
use crate::tally::Tally;
use crate::{expected, Case};

const FILES: [&str; 3] = ["the first alone", "the second alone", "both by different numbers"];
const LIMITS: [&str; 4] = ["64 facts", "64 actions", "1,000,000 of a pool", "1,000,000 of a store"];
const FORMS: [&str; 9] =
    ["4 and 4", "4 and 5", "4 and 6", "5 and 4", "5 and 5", "5 and 6", "6 and 4", "6 and 5", "6 and 6"];
const HEADS: [&str; 2] = ["19", "20"];
const ROOMS: [&str; 5] = ["as long as the file", "a byte shorter", "shorter", "empty", "longer"];

/// What was seen of random pairs.
pub struct Seen {
    files: Tally,
    reasons: Tally,
    both: Tally,
    limits: Tally,
    forms: Tally,
    heads: Tally,
    rooms: Tally,
}

impl Seen {
    pub fn none() -> Seen {
        Seen {
            files: Tally::new("pairs refused for a file", &FILES),
            reasons: Tally::new("pairs refused for one reason alone", &REASONS),
            both: Tally::new("pairs refused by 32", &["with a reason for 33"]),
            limits: Tally::new("pooled jobs at a limit", &LIMITS),
            forms: Tally::new("pooled jobs, by the entries of both files", &FORMS),
            heads: Tally::new("pooled jobs, by the bytes of the head", &HEADS),
            rooms: Tally::new("slices for pooled jobs", &ROOMS),
        }
    }

    pub fn tallies(&self) -> [&Tally; 7] {
        [&self.files, &self.reasons, &self.both, &self.limits, &self.forms, &self.heads, &self.rooms]
    }

    fn pair(&mut self, first: &Result<Job, u64>, second: &Result<Job, u64>) {
        match (first, second) {
            (Err(_), Ok(_)) => self.files.add(0),
            (Ok(_), Err(_)) => self.files.add(1),
            (Err(first), Err(second)) if first != second => self.files.add(2),
            (Err(_), Err(_)) => {}
            (Ok(first), Ok(second)) => self.jobs(first, second),
        }
    }

    fn jobs(&mut self, first: &Job, second: &Job) {
        let holds = plain_pool::reasons(first, second);
        match holds.iter().filter(|holds| **holds).count() {
            0 => self.forms.add(3 * (first.form.entries() - 4) + second.form.entries() - 4),
            1 => (0..7).filter(|&k| holds[k]).for_each(|k| self.reasons.add(k)),
            _ if holds[..4].contains(&true) && holds[4..].contains(&true) => self.both.add(0),
            _ => {}
        }
    }

    fn pooled(&mut self, job: &Job, length: usize, room: usize) {
        let is_full = |amounts: &[u32; 4]| amounts.contains(&AMOUNT);
        let at_limits =
            [job.facts as usize == COUNT, job.actions.len() == COUNT, is_full(&job.pool), is_full(&job.store)];
        (0..4).filter(|&k| at_limits[k]).for_each(|k| self.limits.add(k));
        self.heads.add((job.rule == Rule::Hourly) as usize);
        self.rooms.add(match room {
            0 => 3,
            _ if room == length => 0,
            _ if room + 1 == length => 1,
            _ if room < length => 2,
            _ => 4,
        });
    }
}

/// A file, and what reading it gives.
pub struct Given<'a> {
    pub file: &'a [u8],
    pub job: &'a Result<Job, u64>,
}

impl Case<'_> {
    /// Into a slice of this length, between other bytes: all of them are compared.
    fn pool(&mut self, r: &mut Random, files: [&Given; 2], pooled: &Result<Job, u64>, room: usize) {
        let mut around = r.bytes(room + 32);
        let mut want = around.clone();
        let length = match pooled {
            Ok(job) => plain::write(job, &mut want[16..16 + room]).map(|n| n as u64),
            Err(number) => Err(*number),
        };
        let out = around[16..].as_mut_ptr();
        let [first, second] = files.map(|given| given.file);
        let answer =
            unsafe { ruhkevois_pool(first.as_ptr(), first.len(), second.as_ptr(), second.len(), out, room) };
        self.same("pool", answer, expected(length));
        self.same_bytes("pooled file", &around, &want);
    }

    /// The pooled job's file, where the jobs can be pooled: it is accepted.
    fn pooled_file(&mut self, pooled: &Result<Job, u64>) -> Option<Vec<u8>> {
        let file = cases::file(pooled.as_ref().ok()?);
        let job = plain::read(&file);
        if let Err(number) = job {
            self.differs("pooled job", format!("refused by {number}"));
        }
        self.read(&file, &job);
        Some(file)
    }

    /// Two files in both orders, each into a slice of some length.
    fn pair(&mut self, r: &mut Random, first: &Given, second: &Given) {
        for files in [[first, second], [second, first]] {
            let pooled = plain_pool::pool(files[0].job, files[1].job);
            let length = self.pooled_file(&pooled).map_or(r.below(400) as usize, |file| file.len());
            let room = match r.below(6) {
                0 | 1 => length,
                2 => length.saturating_sub(1),
                3 => r.below(length as u64 + 1) as usize,
                4 => 0,
                _ => length + 1 + r.below(40) as usize,
            };
            self.pool(r, files, &pooled, room);
            self.seen.pairs.pair(files[0].job, files[1].job);
            if let Ok(job) = &pooled {
                self.seen.pairs.pooled(job, length, room);
            }
        }
    }

    /// The file with itself, with one that may be pooled with it, or with a damaged one.
    pub fn pairs(&mut self, r: &mut Random, file: &[u8], job: &Result<Job, u64>) {
        let given = Given { file, job };
        if r.one_in(10) {
            return self.pair(r, &given, &given);
        }
        let partner = match job {
            Ok(job) => pairs::partner(r, job),
            Err(_) => cases::job(r, &cases::SMALL),
        };
        let mut other = cases::file(&partner);
        if r.one_in(if job.is_ok() { 8 } else { 2 }) {
            other = cases::damage(r, other);
        }
        self.pair(r, &given, &Given { file: &other, job: &plain::read(&other) });
    }
}

/// Pairs at each limit, in both orders, into a slice as long as the file, a byte shorter, longer and of no bytes.
pub fn one_by_one(case: &mut Case) {
    let mut r = Random::new(0);
    for (first, second) in pairs::every_pair() {
        let files = [cases::file(&first), cases::file(&second)];
        let jobs = [plain::read(&files[0]), plain::read(&files[1])];
        let given = |k: usize| Given { file: &files[k], job: &jobs[k] };
        for pair in [[&given(0), &given(1)], [&given(1), &given(0)]] {
            let pooled = plain_pool::pool(pair[0].job, pair[1].job);
            let length = case.pooled_file(&pooled).map_or(400, |file| file.len());
            for room in [length, length - 1, length + 5, 0] {
                case.pool(&mut r, pair, &pooled, room);
            }
        }
    }
}
