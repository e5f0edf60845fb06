//! Compares the calls with an independent implementation in plain Rust, on random jobs, files, sets, plans, rates,
//! begun days, true lengths, pairs of files, joined plans, places of lists and halfway sets, through the C interface.
//! Before those it goes through files of each form, true lengths, the limits of stores, of pooled jobs and of days in
//! two halves one by one, as seed 0.
//! A difference prints the seed of its case and ends with status 1. Arguments: number of cases, first seed.
mod cases;
mod forms;
mod halves;
mod handovers;
mod joins;
mod lists;
mod pairs;
#[allow(dead_code)]
#[path = "../bench/plain.rs"]
mod plain;
mod plain_halves;
mod plain_join;
mod plain_list;
mod plain_pool;
mod plain_price;
mod plain_replan;
mod plain_true_day;
mod pooled_days;
mod pools;
mod replans;
#[allow(dead_code)]
#[path = "../examples/ruhkevois.rs"]
mod ruhkevois;
mod season;
mod simple_planner;
mod tally;
mod triples;
mod true_days;
use cases::Random;
use plain::Job;
use plain_price::Rates;
use ruhkevois::exported::*;
use tally::Tally;

const UNREACHABLE: u64 = 2;

/// What stands before a call in the array that is lent for the peaks, and around it.
const BEFORE: [u32; 6] = [0xa1b2_c3d4, 1, 0xffff_ffff, 0x8000_0000, 77, 0xa1b2_c3d4];

fn done(end: u64, steps: u64) -> u64 {
    end << 16 | steps << 48
}

fn refused(number: u64) -> u64 {
    1 | number << 8
}

/// The answer that the plain version gives.
fn expected(end: Result<u64, u64>) -> u64 {
    end.map_or_else(refused, |end| done(end, 0))
}

/// What was seen: refusals by number (0: done), prices by their bits, accepted plans and planned ones by their steps,
/// days by the number of pools that are in use at some minute, days with a pool of which all is in use, what handovers
/// and the hourly rule changed, replans, true days, pairs of files, pooled days, joined plans, lists, and days in two
/// halves.
struct Seen {
    refusals: [u64; 36],
    prices: [u64; 65],
    accepted: [u64; 33],
    planned: [u64; 33],
    pools: [u64; 5],
    full: u64,
    handovers: handovers::Seen,
    season: season::Seen,
    replans: replans::Seen,
    true_days: true_days::Seen,
    pairs: pools::Seen,
    pooled_days: Tally,
    joins: joins::Seen,
    triples: Tally,
    lists: lists::Seen,
    halves: halves::Seen,
}

/// A slice lent for a plan, between other bytes, and an array lent for the peaks, between other numbers.
#[derive(Clone)]
struct Lent {
    around: Vec<u8>,
    before: Vec<u8>,
    peaks: [u32; 6],
}

impl Lent {
    fn new(r: &mut Random, room: usize) -> Lent {
        let around = r.bytes(room + 32);
        Lent { before: around.clone(), around, peaks: BEFORE }
    }

    fn room(&self) -> usize {
        self.around.len() - 32
    }

    fn out(&mut self) -> *mut u8 {
        self.around[16..].as_mut_ptr()
    }

    fn peaks(&mut self) -> *mut u32 {
        self.peaks[1..5].as_mut_ptr()
    }
}

/// One case: its seed, and what was seen in all cases.
struct Case<'a> {
    seed: u64,
    seen: &'a mut Seen,
}

impl Case<'_> {
    fn differs(&self, what: &str, detail: String) -> ! {
        println!("seed {}: {what} differs: {detail}", self.seed);
        println!("again: tests/run 1 {}", self.seed);
        std::process::exit(1);
    }

    fn same(&mut self, what: &str, got: u64, want: u64) {
        if got != want {
            self.differs(what, format!("got {got:#x}, expected {want:#x}"));
        }
        self.seen.refusals[if got & 255 == 1 { (got >> 8 & 255) as usize } else { 0 }] += 1;
    }

    fn same_bytes(&self, what: &str, got: &[u8], want: &[u8]) {
        if let Some(at) = (0..want.len()).find(|&i| got[i] != want[i]) {
            self.differs(what, format!("byte {at} is {}, expected {}", got[at], want[at]));
        }
    }

    /// The array lent for the peaks: these, or what it held before where there is no day.
    fn same_array(&self, what: &str, got: [u32; 6], peaks: Option<[u32; 4]>) {
        let mut want = BEFORE;
        if let Some(peaks) = peaks {
            want[1..5].copy_from_slice(&peaks);
        }
        if got != want {
            self.differs(what, format!("got {got:?}, expected {want:?}"));
        }
    }

    /// The same for the peaks of the plan for this job, if there is a day.
    fn same_peaks(&mut self, what: &str, got: [u32; 6], job: Option<&Job>, plan: &[u8]) {
        let peaks = job.map(|job| plain::peaks(job, plan));
        self.same_array(what, got, peaks);
        if let (Some(job), Some(peaks)) = (job, peaks) {
            self.seen.pools[peaks.iter().filter(|&&peak| peak > 0).count()] += 1;
            self.seen.full += (0..4).any(|k| 0 < peaks[k] && peaks[k] == job.pool[k]) as u64;
        }
    }

    fn read(&mut self, file: &[u8], job: &Result<Job, u64>) {
        let answer = unsafe { ruhkevois_read(file.as_ptr(), file.len()) };
        let want = job.as_ref().map(|_| file.len() as u64).map_err(|n| *n);
        self.same("read", answer, expected(want));
        if let Err(number) = want {
            self.seen.season.read(file, number);
        }
    }

    /// Into a slice of this length, between other bytes: all of them are compared.
    fn rewrite(&mut self, r: &mut Random, file: &[u8], job: &Result<Job, u64>, room: usize) {
        let mut around = r.bytes(room + 32);
        let mut want = around.clone();
        let length = match job {
            Ok(job) => plain::write(job, &mut want[16..16 + room]).map(|n| n as u64),
            Err(number) => Err(*number),
        };
        let out = &mut around[16..16 + room];
        let answer = unsafe { ruhkevois_rewrite(file.as_ptr(), file.len(), out.as_mut_ptr(), room) };
        self.same("rewrite", answer, expected(length));
        self.same_bytes("rewritten file", &around, &want);
    }

    fn check(&mut self, file: &[u8], job: &Result<Job, u64>, plan: &[u8]) {
        let mut peaks = BEFORE;
        let lent = peaks[1..5].as_mut_ptr();
        let answer = unsafe { ruhkevois_check(file.as_ptr(), file.len(), plan.as_ptr(), plan.len(), lent) };
        let want = job.as_ref().map_err(|n| *n).and_then(|job| plain::check(job, plan));
        self.same("check", answer, expected(want));
        self.same_peaks("peaks of check", peaks, job.as_ref().ok().filter(|_| want.is_ok()), plan);
        self.seen.accepted[if answer & 255 == 0 { plan.len() / 3 } else { 0 }] += 1;
        if let Ok(job) = job {
            self.seen.handovers.checked(job, plan, want);
            self.seen.season.checked(job, plan, want);
        }
    }

    /// The call is lent rates of any values behind the job's pools and stores.
    fn price(&mut self, file: &[u8], job: &Result<Job, u64>, plan: &[u8], rates: &Rates) {
        let (pools, stores) = (rates.pools.as_ptr(), rates.stores.as_ptr());
        let answer = unsafe {
            ruhkevois_price(file.as_ptr(), file.len(), plan.as_ptr(), plan.len(), pools, stores, rates.evening)
        };
        let price = job.as_ref().map_err(|n| *n).and_then(|job| plain_price::price(job, plan, rates));
        self.same("price", answer, price.map_or_else(refused, |cents| cents << 8));
        if let (Ok(job), Ok(cents)) = (job, price) {
            self.seen.prices[64 - cents.leading_zeros() as usize] += 1;
            self.seen.season.priced(job, plan, rates, cents);
        }
    }

    /// The plan's price, and that of the same plan in the evening.
    fn prices(&mut self, r: &mut Random, file: &[u8], job: &Result<Job, u64>, plan: &[u8]) {
        let rates = job.as_ref().map_or(Rates::default(), |job| cases::rates(r, job));
        self.price(file, job, plan, &rates);
        if let Some(job_of_plan) = job.as_ref().ok().filter(|job| plain::check(job, plan).is_ok()) {
            let later = cases::evening_plan(r, job_of_plan, plan);
            self.price(file, job, &later, &rates);
        }
    }

    fn earliest(&mut self, file: &[u8], job: &Result<Job, u64>, set: u64) {
        let answer = unsafe { ruhkevois_earliest(file.as_ptr(), file.len(), set) };
        let time = job.as_ref().map_err(|n| *n).and_then(|job| plain::earliest(job, set));
        let want = match time {
            Ok(None) => UNREACHABLE,
            Ok(Some(minute)) => done(minute as u64, 0),
            Err(number) => refused(number),
        };
        self.same("earliest", answer, want);
    }

    /// The plan that the answer says is written, if it says so: nothing around it has changed, its peaks are told.
    fn handed_out(&mut self, call: &str, lent: &Lent, answer: u64, job: &Result<Job, u64>) -> Option<Vec<u8>> {
        let job = job.as_ref().ok().filter(|_| answer & 255 == 0);
        let behind = 16 + job.map_or(0, |_| 3 * (answer >> 48) as usize);
        self.same_bytes(&format!("slice before {call}"), &lent.around[..16], &lent.before[..16]);
        self.same_bytes(&format!("slice behind {call}"), &lent.around[behind..], &lent.before[behind..]);
        let plan = lent.around[16..behind].to_vec();
        self.same_peaks(&format!("peaks of {call}"), lent.peaks, job, &plan);
        job.map(|_| plan)
    }

    /// The answer, every byte around and the peaks are those of this plan, or of the refusal.
    fn same_plan(&mut self, call: &str, answer: u64, lent: &Lent, job: &Result<Job, u64>, want: &Result<Vec<u8>, u64>) {
        let day = job.as_ref().ok().zip(want.as_ref().ok());
        let told = |(job, plan): (&Job, &Vec<u8>)| done(plain_join::end(job, plan), plan.len() as u64 / 3);
        self.same(call, answer, want.as_ref().err().map_or_else(|| day.map_or(0, told), |number| refused(*number)));
        let plan = day.map_or(&[][..], |day| day.1);
        let mut around = lent.before.clone();
        around[16..16 + plan.len()].copy_from_slice(plan);
        self.same_bytes(&format!("slice of {call}"), &lent.around, &around);
        self.same_peaks(&format!("peaks of {call}"), lent.peaks, day.map(|day| day.0), plan);
    }

    /// Plans into a slice of this length; gives the answer and the plan, where there is one, which ends as told.
    fn ask_plan(&mut self, r: &mut Random, file: &[u8], job: &Result<Job, u64>, room: usize) -> (u64, Option<Vec<u8>>) {
        let mut lent = Lent::new(r, room);
        let answer = unsafe { ruhkevois_plan(file.as_ptr(), file.len(), lent.out(), room, lent.peaks()) };
        let plan = self.handed_out("plan", &lent, answer, job);
        if let (Ok(job), Some(plan)) = (job, &plan) {
            let checked = plain::check(job, plan);
            self.same("end of the plan", expected(checked), expected(Ok(answer >> 16 & 0xffff_ffff)));
            self.seen.planned[plan.len() / 3] += 1;
        }
        (answer, plan)
    }

    /// The same with the end that the simple planner gives; the plan, where there is one.
    fn plan(&mut self, r: &mut Random, file: &[u8], job: &Result<Job, u64>, room: usize) -> Option<Vec<u8>> {
        let (answer, plan) = self.ask_plan(r, file, job, room);
        let want = match job {
            Err(number) => refused(*number),
            Ok(_) if room < 96 => refused(21),
            Ok(job) => {
                let least = simple_planner::least_end(job);
                self.seen.handovers.planned(job, least);
                self.seen.season.planned(job, least);
                least.map_or(refused(22), |end| done(end as u64, answer >> 48))
            }
        };
        self.same("plan", answer, want);
        plan
    }
}

/// A slice's length for a file: just long enough, longer, or too short.
fn some_room(r: &mut Random, length: usize) -> usize {
    match r.below(3) {
        0 => length,
        1 => length + r.below(40) as usize,
        _ => r.below(length as u64 + 1) as usize,
    }
}

fn some_set(r: &mut Random, facts: u64) -> u64 {
    if r.one_in(8) {
        r.next()
    } else {
        r.set(facts, 4)
    }
}

/// Every call on one file, whatever it holds. Plans are asked for where the file is refused, or the job is small, and
/// pooled days where it is small.
fn every_call(case: &mut Case, r: &mut Random, file: &[u8], is_small: bool) {
    let job = plain::read(file);
    case.read(file, &job);
    let room = some_room(r, file.len());
    case.rewrite(r, file, &job, room);
    case.earliest(file, &job, some_set(r, job.as_ref().map_or(64, |job| job.facts as u64)));
    let plan = job.as_ref().map_or(vec![0; 3], |job| cases::any_plan(r, job));
    case.check(file, &job, &plan);
    case.prices(r, file, &job, &plan);
    case.true_days(r, file, &job, &plan);
    if is_small || job.is_err() {
        let room = if r.one_in(8) { r.below(96) } else { 96 + r.below(20) };
        let planned = case.plan(r, file, &job, room as usize);
        if let Some(plan) = &planned {
            case.check(file, &job, plan);
            case.prices(r, file, &job, plan);
            case.true_days(r, file, &job, plan);
            let damaged = cases::damage_plan(r, plan.clone());
            case.check(file, &job, &damaged);
            case.true_days(r, file, &job, &damaged);
        }
        replans::small_days(case, r, file, &job, planned);
    }
    case.pairs(r, file, &job);
    if let Some(job) = job.as_ref().ok().filter(|_| is_small) {
        case.pooled_days(r, file, job);
    }
    case.joins(r, file, &job);
    case.triples(r, file, &job);
    case.lists(r, file, &job, is_small);
    case.halves(r, file, &job, is_small);
}

/// A plan made step by step, with the facts at its end as the goal: accepted, priced, run with true lengths, and
/// replanned when the day is over; then damaged.
fn grown_plans(case: &mut Case, r: &mut Random, job: Job) {
    let mut job = if r.one_in(2) { cases::dear(r, job) } else { job };
    let (plan, held) = cases::grown_plan(r, &job);
    job.goal = held & r.next();
    let file = cases::file(&job);
    let job = plain::read(&file);
    case.check(&file, &job, &plan);
    replans::over_days(case, r, &file, &job, &plan, held);
    for _ in 0..4 {
        case.prices(r, &file, &job, &plan);
        case.true_days(r, &file, &job, &plan);
        let damaged = cases::damage_plan(r, plan.clone());
        case.check(&file, &job, &damaged);
        case.prices(r, &file, &job, &damaged);
        case.true_days(r, &file, &job, &damaged);
    }
}

/// A file with a job within the limits, one at up to three limits or beyond, one that is damaged, or any bytes.
fn some_file(r: &mut Random, kind: u64, job: Job) -> Vec<u8> {
    match kind {
        0 => cases::damage(r, cases::file(&job)),
        1 if r.one_in(3) => cases::with_bodies_behind(r, &job),
        1 if r.one_in(3) => cases::with_head_of(&cases::file(&job), 18 + r.below(4) as usize, r.below(64) as u8),
        1 => cases::resize_bodies(r, cases::file(&job)),
        2 => cases::file(&(0..=r.below(3)).fold(job, |job, _| cases::at_a_limit(r, job))),
        3 => {
            let longest = if r.one_in(4) { 5000 } else { 100 };
            let length = r.below(longest) as usize;
            cases::any_bytes(r, length)
        }
        _ => cases::file(&job),
    }
}

/// A small job, half of the time with a goal that some plan reaches.
fn small_job(r: &mut Random) -> Job {
    let mut job = cases::job(r, &cases::SMALL);
    if r.one_in(2) {
        job.goal = cases::reachable_goal(r, &job);
    }
    job
}

fn one_case(case: &mut Case) {
    let mut r = Random::new(case.seed);
    let size = r.below(9);
    let is_small = size > 1;
    let job = match size {
        0 => cases::job(&mut r, &cases::LARGE),
        1 => cases::job(&mut r, &cases::ROOMY),
        2 | 3 => cases::errands(&mut r),
        4 => cases::hours(&mut r),
        _ => small_job(&mut r),
    };
    let kind = r.below(10);
    if kind == 4 {
        grown_plans(case, &mut r, job);
    } else {
        let file = some_file(&mut r, kind, job);
        every_call(case, &mut r, &file, is_small && kind > 4);
    }
}

/// What was seen of each number from 1 on: "number times count".
fn counts(of: &[u64]) -> String {
    let seen = (1..of.len()).filter(|&n| of[n] > 0);
    seen.map(|n| format!("{n} x {}", of[n])).collect::<Vec<String>>().join(", ")
}

/// A run of so many cases, the gate's, sees every refusal of the table.
const ALL_SEEN: u64 = 50_000;

/// The numbers of the table that were never told.
fn never_told(refusals: &[u64]) -> Vec<usize> {
    (1..=35).filter(|&number| refusals[number] == 0).collect()
}

fn main() {
    let argument = |i: usize, other: u64| std::env::args().nth(i).map_or(other, |x| x.parse().expect("a number"));
    let (count, first) = (argument(1, 100_000), argument(2, 1));
    let mut seen = Seen {
        refusals: [0; 36],
        prices: [0; 65],
        accepted: [0; 33],
        planned: [0; 33],
        pools: [0; 5],
        full: 0,
        handovers: handovers::Seen::default(),
        season: season::Seen::default(),
        replans: replans::Seen::none(),
        true_days: true_days::Seen::default(),
        pairs: pools::Seen::none(),
        pooled_days: pooled_days::none_seen(),
        joins: joins::Seen::none(),
        triples: triples::none_seen(),
        lists: lists::Seen::none(),
        halves: halves::Seen::none(),
    };
    for (place, file) in forms::every_file().iter().enumerate() {
        every_call(&mut Case { seed: 0, seen: &mut seen }, &mut Random::new(place as u64), file, false);
    }
    true_days::one_by_one(&mut Case { seed: 0, seen: &mut seen });
    season::one_by_one(&mut Case { seed: 0, seen: &mut seen });
    pools::one_by_one(&mut Case { seed: 0, seen: &mut seen });
    halves::one_by_one(&mut Case { seed: 0, seen: &mut seen });
    for seed in first..first + count {
        one_case(&mut Case { seed, seen: &mut seen });
    }
    println!("refusals, by number: {}", counts(&seen.refusals));
    println!("prices, by bits: {}", counts(&seen.prices));
    println!("plans accepted, by steps: {}", counts(&seen.accepted));
    println!("plans written, by steps: {}", counts(&seen.planned));
    println!("days, by pools in use: {}; all of a pool x {}", counts(&seen.pools), seen.full);
    seen.handovers.print();
    seen.season.print();
    seen.replans.print();
    seen.true_days.print();
    let (joins, lists, halves) = (seen.joins.tallies(), seen.lists.tallies(), seen.halves.tallies());
    let pooled = [&seen.pairs.tallies()[..], &[&seen.pooled_days]].concat();
    let tallies = [&pooled[..], &joins, &[&seen.triples], &lists, &halves].concat();
    tallies.iter().for_each(|tally| println!("{tally}"));
    let never = never_told(&seen.refusals);
    assert!(count < ALL_SEEN || never.is_empty(), "in {count} cases none was refused by {never:?}");
    let never: Vec<String> = tallies.iter().flat_map(|tally| tally.never()).collect();
    assert!(count < ALL_SEEN || never.is_empty(), "in {count} cases there were none of {never:?}");
    println!("{count} cases from seed {first}: {} answers, all the same", seen.refusals.iter().sum::<u64>());
}
