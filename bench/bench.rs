//! Times the proved calls beside the plain ones, on the same inputs in one run, and compares their answers.
mod days;
mod landmarks;
#[allow(dead_code)]
mod plain;
#[allow(dead_code)]
mod planner;
mod rows;
#[allow(dead_code)]
mod without;
#[allow(dead_code)]
#[path = "../tests/cases.rs"]
mod cases;
#[allow(dead_code)]
#[path = "../tests/plain_price.rs"]
mod plain_price;
#[allow(dead_code)]
#[path = "../examples/ruhkevois.rs"]
mod ruhkevois;
use ruhkevois::Answer;
use std::hint::black_box;
use std::time::Instant;

/// The largest job of four entries: 64 facts, 4 pools, 4 stores, 64 actions; action i adds fact i and needs fact i - 1.
fn largest() -> Vec<u8> {
    let action = |i: u64| plain::Action {
        duration: 45,
        needs: if i == 0 { 0 } else { 1 << (i - 1) },
        adds: 1 << i,
        deletes: 0,
        pools: [1, 2, 3, 4],
        stores: [1, 1, 1, 1],
    };
    let job = plain::Job {
        form: plain::Form::Four,
        rule: plain::Rule::Once,
        reserve: 0,
        facts: 64,
        deadline: 1440,
        start: 0,
        goal: 1 << 31,
        pools: 4,
        stores: 4,
        pool: [1, 2, 3, 4],
        store: [1_000_000; 4],
        actions: (0..64).map(action).collect(),
        handovers: [0; 4],
        shortest: [0; 64],
    };
    let mut out = vec![0; 4096];
    let n = plain::write(&job, &mut out).unwrap();
    out.truncate(n);
    out
}

/// 32 steps one after the other, over 1,440 minutes.
fn long_plan() -> Vec<u8> {
    (0..32u16).flat_map(|i| { let t = (i * 45).to_le_bytes(); [i as u8, t[0], t[1]] }).collect()
}

fn nanos<T, F: FnMut() -> T>(rounds: u32, mut f: F) -> f64 {
    let mut best = f64::MAX;
    for _ in 0..5 {
        let start = Instant::now();
        for _ in 0..rounds {
            black_box(f());
        }
        best = best.min(start.elapsed().as_nanos() as f64 / rounds as f64);
    }
    best
}

/// An answer without steps and peaks.
fn done(end: usize) -> Answer {
    Answer::Done { end: end as u32, steps: 0, peaks: [0; 4] }
}

/// The plan's end and its peaks, which the proved call tells together.
fn plain_check(job: &plain::Job, plan: &[u8]) -> Result<(u64, [u32; 4]), u64> {
    plain::check(job, plan).map(|end| (end, plain::peaks(job, plan)))
}

/// The plain answer as the proved call tells it.
fn plain_earliest(job: &plain::Job, set: u64) -> Answer {
    match plain::earliest(job, set) {
        Ok(Some(time)) => done(time as usize),
        Ok(None) => Answer::Unreachable,
        Err(number) => Answer::Refused(number as u8),
    }
}

/// The proved and the plain answer for sets of each of the job's facts, two facts, and any facts.
fn compare(job: &plain::Job, r: &mut days::Random) {
    let file = days::file(job);
    let mut sets = vec![0, job.goal, u64::MAX];
    sets.extend((0..job.facts).map(|q| 1 << q));
    sets.extend((0..8).map(|_| r.next() >> (64 - job.facts.max(1))));
    for set in sets {
        assert_eq!(ruhkevois::earliest(&file, set), plain_earliest(job, set));
    }
}

/// Times the earliest time of a job's goal.
fn time_goal(what: &str, rounds: u32, job: &plain::Job) {
    let file = days::file(job);
    assert_eq!(ruhkevois::earliest(&file, job.goal), plain_earliest(job, job.goal));
    let proved = nanos(rounds, || ruhkevois::earliest(black_box(&file), job.goal));
    let plain = nanos(rounds, || plain_earliest(black_box(job), job.goal));
    row(what, proved, plain);
}

/// Compares the proved and the plain answers on jobs made by code, and times five.
fn earliest_times() {
    let mut r = days::Random(1);
    for _ in 0..3000 {
        compare(&days::any(&mut r), &mut r);
    }
    for _ in 0..3 {
        compare(&days::project(&mut r), &mut r);
    }
    compare(&days::dense(&mut r), &mut r);
    time_goal("earliest time in a project of 20 tasks", 20, &days::project(&mut r));
    time_goal("earliest time in a chain of 64", 5, &plain::read(&largest()).ok().unwrap());
    time_goal("earliest time, 64 actions that add half of 64 facts", 1, &days::dense(&mut r));
    time_goal("earliest time, 64 sweeps over large sets", 1, &days::nested());
    time_goal("earliest time, all reachable and falling", 1, &days::falling());
}

/// A small random job with a goal that some plan reaches.
fn small_job(r: &mut cases::Random) -> plain::Job {
    let mut job = cases::job(r, &cases::SMALL);
    job.goal = cases::reachable_goal(r, &job);
    job
}

/// Compares and times the search on small jobs with plans of three steps or more. `bench/plan` times it on days of full
/// size.
fn search() {
    let by_all_rules = |file: &[u8]| planner::plan(file, &planner::Way::default());
    let mut r = cases::Random::new(1);
    let mut plan = [0; 96];
    let mut jobs = Vec::new();
    while jobs.len() < 50 {
        let job = small_job(&mut r);
        let file = cases::file(&job);
        let answer = ruhkevois::plan(&file, &mut plan);
        if let Answer::Done { end, steps: 3.., .. } = answer {
            assert_eq!(end.to_string(), by_all_rules(&file).0);
            jobs.push(file);
        }
    }
    let proved = nanos(20, || jobs.iter().map(|file| ruhkevois::plan(file, &mut plan)).last());
    let plain = nanos(20, || jobs.iter().map(|file| by_all_rules(file)).last());
    row("plan 50 small jobs", proved, plain);
}

/// Times the earliest time of the goal for each job file in a folder.
fn earliest_times_of(folder: &str) {
    let mut paths: Vec<_> = std::fs::read_dir(folder).unwrap().map(|f| f.unwrap().path()).collect();
    paths.sort();
    for path in paths {
        let job = plain::read(&std::fs::read(&path).unwrap()).ok().unwrap();
        time_goal(&path.file_stem().unwrap().to_string_lossy(), 3, &job);
    }
}

fn row(what: &str, proved: f64, plain: f64) {
    println!("| {what} | {:.2} | {:.2} | {:.1} |", proved / 1000.0, plain / 1000.0, proved / plain);
}

fn main() {
    let file = largest();
    let plan = long_plan();
    let mut out = vec![0u8; 4096];
    assert_eq!(ruhkevois::read(&file), done(file.len()));
    assert_eq!(ruhkevois::rewrite(&file, &mut out), done(file.len()));
    assert_eq!(&out[..file.len()], &file[..]);
    let job = plain::read(&file).ok().unwrap();
    assert_eq!(plain_check(&job, &plan), Ok((1440, [1, 2, 3, 4])));
    assert_eq!(ruhkevois::check(&file, &plan), Answer::Done { end: 1440, steps: 0, peaks: [1, 2, 3, 4] });
    println!("| call | proved, µs | plain Rust, µs | ratio |");
    println!("|---|---|---|---|");
    let r = nanos(2000, || ruhkevois::read(black_box(&file)));
    let r0 = nanos(2000, || plain::read(black_box(&file)).ok().unwrap().actions.len() as u64);
    row("read the largest file of four entries (3,715 bytes)", r, r0);
    let w = nanos(2000, || ruhkevois::rewrite(black_box(&file), black_box(&mut out)));
    let w0 = nanos(2000, || plain::write(black_box(&job), black_box(&mut out)).unwrap() as u64);
    row("write it", w - r, w0);
    let c = nanos(500, || ruhkevois::check(black_box(&file), black_box(&plan)));
    let c0 = nanos(500, || plain_check(black_box(&job), black_box(&plan)).unwrap());
    row("check a plan of 32 steps over 1,440 minutes", c - r, c0);
    earliest_times();
    search();
    if let Some(folder) = std::env::args().nth(1) {
        earliest_times_of(&folder);
    }
}
