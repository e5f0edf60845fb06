//! What pooling two jobs to one gives, in plain Rust and from document 02 alone.
use crate::plain::{self, Action, Form, Job, Rule};

/// The reasons for 32, of which there are four, and then those for 33.
pub const REASONS: [&str; 7] = ["facts", "actions", "a pool", "a store", "handovers", "heads", "reserves"];
const FOR_32: usize = 4;

/// Which of the reasons hold of two jobs.
pub fn reasons(first: &Job, second: &Job) -> [bool; 7] {
    let over = |x: &[u32; 4], y: &[u32; 4]| (0..4).any(|k| x[k] + y[k] > 1_000_000);
    let both_hourly = first.rule == Rule::Hourly && second.rule == Rule::Hourly;
    [
        first.facts as u32 + second.facts as u32 > 64,
        first.actions.len() + second.actions.len() > 64,
        over(&first.pool, &second.pool),
        over(&first.store, &second.store),
        (0..first.pools.min(second.pools)).any(|k| first.handover(k) != second.handover(k)),
        first.rule != second.rule,
        both_hourly && first.reserve != second.reserve,
    ]
}

/// An action whose facts are numbered behind so many others.
fn renumbered(action: &Action, facts: u8) -> Action {
    let behind = |set: u64| set_behind(set, facts);
    Action { needs: behind(action.needs), adds: behind(action.adds), deletes: behind(action.deletes), ..*action }
}

fn set_behind(set: u64, facts: u8) -> u64 {
    plain::members(set).fold(0, |behind, fact| behind | 1 << (fact + facts as usize))
}

/// The form with more entries.
fn larger_form(a: Form, b: Form) -> Form {
    if a.entries() > b.entries() { a } else { b }
}

/// The job that two become of which no reason holds. What a job lacks is 0 in its arrays.
fn pooled(first: &Job, second: &Job) -> Job {
    let facts = first.facts;
    let sums = |x: &[u32; 4], y: &[u32; 4]| [0, 1, 2, 3].map(|k| x[k] + y[k]);
    let handover = |k: usize| if k < first.pools { first.handover(k) } else { second.handover(k) };
    let lengths = |job: &Job| (0..job.actions.len()).map(|n| job.shortest_length(n)).collect::<Vec<u8>>();
    let both_lengths = [lengths(first), lengths(second)].concat();
    let mut shortest = [0; 64];
    shortest[..both_lengths.len()].copy_from_slice(&both_lengths);
    Job {
        form: larger_form(first.form, second.form),
        rule: first.rule,
        reserve: first.reserve,
        facts: facts + second.facts,
        deadline: first.deadline.max(second.deadline),
        start: first.start | set_behind(second.start, facts),
        goal: first.goal | set_behind(second.goal, facts),
        pools: first.pools.max(second.pools),
        stores: first.stores.max(second.stores),
        pool: sums(&first.pool, &second.pool),
        store: sums(&first.store, &second.store),
        actions: first.actions.iter().copied().chain(second.actions.iter().map(|a| renumbered(a, facts))).collect(),
        handovers: [0, 1, 2, 3].map(|k| handover(k) as u8),
        shortest,
    }
}

/// The pooled job, or the refusal: the first job's, the second's, 32, 33.
pub fn pool(first: &Result<Job, u64>, second: &Result<Job, u64>) -> Result<Job, u64> {
    let first = first.as_ref().map_err(|n| *n)?;
    let second = second.as_ref().map_err(|n| *n)?;
    let holds = reasons(first, second);
    let (for_32, for_33) = holds.split_at(FOR_32);
    if for_32.contains(&true) {
        return Err(32);
    }
    if for_33.contains(&true) {
        return Err(33);
    }
    Ok(pooled(first, second))
}
