//! Jobs for pooling: a random partner of a job, and pairs at each limit, gone through one by one.
use crate::cases::{self, Random};
use crate::plain::{Action, Form, Job, Rule};

/// The most of a pool or store.
pub const AMOUNT: u32 = 1_000_000;

/// The most facts, and the most actions.
pub const COUNT: usize = 64;

const FORMS: [Form; 3] = [Form::Four, Form::Five, Form::Six];

/// The job with so many facts, and any sets of them.
fn with_facts(r: &mut Random, mut job: Job, facts: usize) -> Job {
    let all = (0..facts).fold(0, |set, fact| set | 1 << fact);
    let mut any = || r.next() & all;
    (job.facts, job.start, job.goal) = (facts as u8, any(), any());
    for action in &mut job.actions {
        (action.needs, action.adds) = (any(), any());
        action.deletes = any() & !action.adds;
    }
    job
}

/// The job with so many actions: its own, again and again.
fn with_actions(mut job: Job, count: usize) -> Job {
    if job.actions.is_empty() {
        job.actions.push(Action { duration: 1, ..Action::default() });
    }
    let own = job.actions.len();
    for n in own..count {
        job.actions.push(job.actions[n - own]);
        job.shortest[n] = job.shortest[n - own];
    }
    job.actions.truncate(count);
    job
}

/// The job in which half of the actions use as much of each pool and store as there is.
fn with_large_uses(r: &mut Random, mut job: Job) -> Job {
    for action in job.actions.iter_mut().filter(|_| r.one_in(2)) {
        (action.pools, action.stores) = ([AMOUNT; 4], [AMOUNT; 4]);
    }
    cases::within_available(&mut job);
    job
}

/// The job with the other's head and reserve, and with its handovers of the pools that both have: no reason for 33.
pub fn alike(r: &mut Random, job: Job, other: &Job) -> Job {
    let mut job = Job { rule: other.rule, reserve: other.reserve, ..job };
    let shared = job.pools.min(other.pools);
    for k in 0..shared {
        job.handovers[k] = other.handover(k) as u8;
    }
    if job.form == Form::Four && job.handovers[..shared].iter().any(|minutes| *minutes > 0) {
        job.form = FORMS[1 + r.below(2) as usize];
    }
    cases::within_available(&mut job);
    job
}

/// The job with another handover of a shared pool, the other head, or another reserve: a reason for 33, or none where
/// the jobs have nothing of the kind.
fn unlike(r: &mut Random, mut job: Job, other: &Job) -> Job {
    let shared = job.pools.min(other.pools);
    match r.below(3) {
        0 if shared > 0 => {
            let k = r.below(shared as u64) as usize;
            job.form = FORMS[1 + r.below(2) as usize];
            job.handovers[k] = (other.handover(k) as u8 + 1 + r.below(30) as u8) % 31;
        }
        1 => job.rule = if job.rule == Rule::Once { Rule::Hourly } else { Rule::Once },
        _ => job.reserve = (job.reserve + 1 + r.below(50) as u8) % 51,
    }
    cases::within_available(&mut job);
    job
}

/// The job with as many facts or actions, or as much of a pool or store, as make up a limit with the other's, or one
/// more.
fn at_a_limit(r: &mut Random, mut job: Job, other: &Job) -> Job {
    let over = r.below(2);
    let count = |of_other: usize| (COUNT + over as usize - of_other).min(COUNT);
    let amount = |of_other: u32| (AMOUNT + over as u32 - of_other).min(AMOUNT);
    match r.below(4) {
        0 => job = with_facts(r, job, count(other.facts as usize)),
        1 => job = with_actions(job, count(other.actions.len())),
        2 => {
            let k = r.below(job.pools.max(1) as u64) as usize;
            job.pool[k] = amount(other.pool[k]);
        }
        _ => {
            let k = r.below(job.stores.max(1) as u64) as usize;
            job.store[k] = amount(other.store[k]);
        }
    }
    with_large_uses(r, job)
}

/// A job to pool with this one: any, or one without a reason for a refusal, at a limit of 32 or beyond it, unlike it,
/// or both.
pub fn partner(r: &mut Random, other: &Job) -> Job {
    let job = match r.below(4) {
        0 => cases::job(r, &cases::LARGE),
        1 => cases::job(r, &cases::ROOMY),
        _ => cases::job(r, &cases::SMALL),
    };
    let kind = r.below(8);
    if kind == 0 {
        return job;
    }
    let job = alike(r, job, other);
    let job = if kind % 2 == 0 { at_a_limit(r, job, other) } else { job };
    if kind > 5 { unlike(r, job, other) } else { job }
}

/// A job with three actions, in this form, under this rule and with so many pools.
fn shaped(r: &mut Random, form: Form, rule: Rule, pools: usize) -> Job {
    let job = with_actions(cases::job(r, &cases::SMALL), 3);
    let some = |r: &mut Random| [0; 4].map(|_| r.below(9) as u32);
    let (pool, store) = (some(r), some(r));
    let job = Job { form, rule, reserve: 20, pools, stores: 4, pool, store, handovers: [5, 6, 7, 8], ..job };
    with_large_uses(r, job)
}

/// Two jobs with four pools and four stores, in six entries and under the hourly rule.
fn two(r: &mut Random) -> (Job, Job) {
    (shaped(r, Form::Six, Rule::Hourly, 4), shaped(r, Form::Six, Rule::Hourly, 4))
}

/// All ways to make up the limit, one less and one more of two numbers.
fn parts_of(limit: usize) -> impl Iterator<Item = (usize, usize)> {
    let about = (0..=limit).flat_map(move |first| [limit - 1, limit, limit + 1].map(|sum| (first, sum)));
    let parts = about.filter(|(first, sum)| first <= sum).map(|(first, sum)| (first, sum - first));
    parts.filter(move |parts| parts.1 <= limit)
}

/// Every way to make up 64 facts or actions, one less and one more.
fn by_counts(r: &mut Random) -> Vec<(Job, Job)> {
    let mut pairs = Vec::new();
    for parts in parts_of(COUNT) {
        let (first, second) = two(r);
        pairs.push((with_facts(r, first, parts.0), with_facts(r, second, parts.1)));
        let (first, second) = two(r);
        pairs.push((with_actions(first, parts.0), with_actions(second, parts.1)));
    }
    pairs
}

/// Some ways to make up 1,000,000 of each pool and each store, one less and one more.
fn by_sums(r: &mut Random) -> Vec<(Job, Job)> {
    let mut pairs = Vec::new();
    for first in [0, 1, AMOUNT / 2, AMOUNT - 1, AMOUNT] {
        for second in [AMOUNT - 1, AMOUNT, AMOUNT + 1].map(|sum| sum.saturating_sub(first).min(AMOUNT)) {
            for k in 0..4 {
                let (mut x, mut y) = two(r);
                (x.pool[k], y.pool[k]) = (first, second);
                pairs.push((with_large_uses(r, x), with_large_uses(r, y)));
                let (mut x, mut y) = two(r);
                (x.store[k], y.store[k]) = (first, second);
                pairs.push((with_large_uses(r, x), with_large_uses(r, y)));
            }
        }
    }
    pairs
}

/// All forms, numbers of pools and rules of two jobs, with the same handovers and with another one at each place.
fn by_shapes(r: &mut Random) -> Vec<(Job, Job)> {
    let mut pairs = Vec::new();
    let shapes: Vec<(Form, usize)> = FORMS.iter().flat_map(|form| (0..=4).map(|pools| (*form, pools))).collect();
    let rules = Rule::BOTH.iter().flat_map(|first| Rule::BOTH.map(|second| (*first, second)));
    for (first, second) in rules {
        for x in &shapes {
            for y in &shapes {
                for other in 0..=4 {
                    let (x, mut y) = (shaped(r, x.0, first, x.1), shaped(r, y.0, second, y.1));
                    y.handovers[other % 4] += (other < 4) as u8;
                    pairs.push((x, y));
                }
            }
        }
    }
    pairs
}

/// Each reserve with itself, the next one and the least and the greatest.
fn by_reserves(r: &mut Random) -> Vec<(Job, Job)> {
    let mut pairs = Vec::new();
    for first in 0..=50 {
        for second in [first, (first + 1).min(50), 0, 50] {
            let (mut x, mut y) = two(r);
            (x.reserve, y.reserve) = (first, second);
            pairs.push((with_large_uses(r, x), with_large_uses(r, y)));
        }
    }
    pairs
}

/// Pairs at each limit of 32, and with each reason for 33.
pub fn every_pair() -> Vec<(Job, Job)> {
    let mut r = Random::new(0);
    [by_counts(&mut r), by_sums(&mut r), by_shapes(&mut r), by_reserves(&mut r)].into_iter().flatten().collect()
}
