//! Jobs for the benchmark of earliest times, made by code.
use crate::plain::{write, Action, Form, Job, Rule};

/// A generator of numbers, the same in every run.
pub struct Random(pub u64);

impl Random {
    pub fn next(&mut self) -> u64 {
        self.0 ^= self.0 << 13;
        self.0 ^= self.0 >> 7;
        self.0 ^= self.0 << 17;
        self.0
    }

    fn below(&mut self, n: u64) -> u64 {
        self.next() % n
    }

    /// A set of facts below this number, each in it once in so many times.
    fn set(&mut self, facts: u64, rare: u64) -> u64 {
        (0..facts).filter(|_| self.below(rare) == 0).fold(0, |set, n| set | 1 << n)
    }
}

pub fn file(job: &Job) -> Vec<u8> {
    let mut out = vec![0; 4096];
    let n = write(job, &mut out).unwrap();
    out.truncate(n);
    out
}

fn job(facts: u8, start: u64, goal: u64, actions: Vec<Action>) -> Job {
    Job {
        form: Form::Four,
        rule: Rule::Once,
        reserve: 0,
        facts,
        deadline: 1440,
        start,
        goal,
        pools: 0,
        stores: 0,
        pool: [0; 4],
        store: [0; 4],
        actions,
        handovers: [0; 4],
        shortest: [0; 64],
    }
}

/// A small job with any sets, pools that forbid some choices, and lengths that often agree. No action uses more of a pool
/// than there is, so that the job is not refused by 26.
pub fn any(r: &mut Random) -> Job {
    let facts = r.below(9);
    let rare = 2 + r.below(3);
    let mut j = job(facts as u8, r.set(facts, 3), 0, Vec::new());
    j.pools = r.below(3) as usize;
    let available = [r.below(4) as u32, r.below(4) as u32];
    j.pool[..j.pools].copy_from_slice(&available[..j.pools]);
    for _ in 0..r.below(9) {
        let adds = r.set(facts, rare);
        j.actions.push(Action {
            duration: 1 + r.below(6) as u8,
            needs: r.set(facts, rare),
            adds,
            deletes: r.set(facts, rare) & !adds,
            pools: [(r.below(3) as u32).min(j.pool[0]), (r.below(3) as u32).min(j.pool[1]), 0, 0],
            stores: [0; 4],
        });
    }
    j
}

/// A project of 20 tasks, each done once: longer with one person, shorter with two or three of four.
pub fn project(r: &mut Random) -> Job {
    let mut j = job(40, 0xf_ffff, 0xf_ffff << 20, Vec::new());
    j.pools = 1;
    j.pool[0] = 4;
    for task in 0..20u64 {
        let earlier = if task < 3 { 0 } else { (1 << r.below(task)) | (1 << r.below(task)) };
        let length = 10 + r.below(40) as u8;
        for people in 1..4 {
            j.actions.push(Action {
                duration: length / people + 1,
                needs: (1 << task) | earlier << 20,
                adds: 1 << (20 + task),
                deletes: 1 << task,
                pools: [people as u32, 0, 0, 0],
                stores: [0; 4],
            });
        }
    }
    j
}

/// 64 facts and 64 actions in no order: one for each fact, which needs half of the facts below it and adds half of all.
pub fn dense(r: &mut Random) -> Job {
    let action = |n: u64| {
        let fact = n * 29 % 64;
        let needs = r.next() & ((1 << fact) - 1);
        Action { duration: 1 + r.below(255) as u8, needs, adds: r.next() | 1 << fact, ..Action::default() }
    };
    job(64, 0, u64::MAX, (0..64).map(action).collect())
}

/// Many sweeps over large sets: action i needs every fact above i and adds fact i and every one above, all with one
/// length.
pub fn nested() -> Job {
    let above = |i: u64| (u64::MAX << i) << 1;
    let action = |i: u64| Action { duration: 255, needs: above(i), adds: u64::MAX << i, ..Action::default() };
    job(64, 0, u64::MAX, (0..64).map(action).collect())
}

/// Many sweeps in which every set is reachable: one long action adds all facts, and action i adds fact i sooner, with
/// every fact above it as needs.
pub fn falling() -> Job {
    let above = |i: u64| (u64::MAX << i) << 1;
    let mut actions = vec![Action { duration: 255, adds: u64::MAX, ..Action::default() }];
    actions.extend((1..64).map(|i| Action { duration: 2, needs: above(i), adds: 1 << i, ..Action::default() }));
    job(64, 0, u64::MAX, actions)
}
