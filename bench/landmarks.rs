//! Landmarks: what every plan that makes a fact true must add on the way, and what that takes at least of the stores,
//! of the pools' minutes and of the minutes.
use crate::plain::{members, Job, Times, NONE};
use crate::rows::{exceeds, Row};

/// Parts of a unit: a share of one unit among up to ten facts is a whole number of them.
pub const SCALE: u64 = 2520;

/// The share of a fact that no action adds; no share is above it.
const MOST: u64 = u32::MAX as u64;

/// No plan is longer than a day: a clique that takes more need not be added up further.
const DAY: u32 = 1440;

/// No finite time is later.
const LATEST: u32 = 530_400;

/// One entry for each fact, or for each pool.
pub struct Landmarks {
    marks: [u64; 64],       // its landmarks
    stores: [[u64; 64]; 4], // for each store, what it takes at least, in parts
    pools: [[u64; 64]; 4],  // for each pool, what it takes at least over its minutes, in parts
    steps: [u64; 64],       // what it takes of the steps at least, in parts
    opens: [u32; 4],        // before which minute no plan uses the pool
    apart: [u64; 64],       // the facts whose adders never overlap its own
    least: [u32; 64],       // the least minutes of an adder; 0 where no fact is apart from it
}

impl Landmarks {
    pub fn new(job: &Job, rows: &[Row], times: &Times) -> Landmarks {
        let apart = find_apart(job, rows, times);
        Landmarks {
            marks: find_marks(rows, job.start),
            stores: std::array::from_fn(|k| find_shares(rows, job.start, |row| row.stores[k])),
            pools: std::array::from_fn(|k| find_shares(rows, job.start, |row| row.pools[k] * row.duration as u64)),
            steps: find_shares(rows, job.start, |_| 1),
            opens: std::array::from_fn(|k| find_opening(rows, times, k)),
            apart,
            least: std::array::from_fn(|q| find_least(rows, apart[q], q)),
        }
    }

    /// The landmarks of the facts of a set.
    pub fn of(&self, set: u64) -> u64 {
        marks_of(&self.marks, set)
    }

    /// What the facts of a set take of a store at least, in parts.
    pub fn of_store(&self, store: usize, set: u64) -> u64 {
        members(set).map(|p| self.stores[store][p]).sum()
    }

    /// What the facts of a set take of a pool at least, each minute for itself, in parts.
    pub fn of_pool(&self, pool: usize, set: u64) -> u64 {
        members(set).map(|p| self.pools[pool][p]).sum()
    }

    /// What the facts of a set take of the steps at least, in parts.
    pub fn of_steps(&self, set: u64) -> u64 {
        members(set).map(|p| self.steps[p]).sum()
    }

    /// The minute before which no plan uses a pool.
    pub fn opening(&self, pool: usize) -> u32 {
        self.opens[pool]
    }

    /// The first of the facts of a set with the most minutes.
    fn longest(&self, set: u64) -> Option<usize> {
        members(set).reduce(|best, q| if self.least[best] < self.least[q] { q } else { best })
    }

    /// The allowed fact to be taken next into a clique, none where the sum is above a day.
    fn pick(&self, allowed: u64, sum: u32) -> Option<usize> {
        if DAY < sum {
            return None;
        }
        self.longest(allowed)
    }

    /// The minutes of a clique of the set: of the fact with the most minutes, of the one with the most of those apart
    /// from it, and so on.
    pub fn minutes(&self, set: u64) -> u32 {
        let (mut allowed, mut sum) = (set, 0);
        while let Some(q) = self.pick(allowed, sum) {
            sum += self.least[q];
            allowed &= self.apart[q] & !(1 << q);
        }
        sum
    }
}

/// The actions that add a fact.
fn adders(rows: &[Row], q: usize) -> impl Iterator<Item = &Row> {
    rows.iter().filter(move |row| row.adds >> q & 1 == 1)
}

fn marks_of(marks: &[u64; 64], set: u64) -> u64 {
    members(set).fold(0, |all, q| all | marks[q])
}

/// Leaves for each fact what the needs of all its adders have too, and the fact itself. Whether a set got less.
fn round(marks: &mut [u64; 64], rows: &[Row]) -> bool {
    let mut changed = false;
    for q in 0..64 {
        let common = adders(rows, q).fold(u64::MAX, |all, row| all & marks_of(marks, row.needs));
        let lower = marks[q] & (1 << q | common);
        changed |= lower != marks[q];
        marks[q] = lower;
    }
    changed
}

/// The landmarks of each fact: none of a fact at the start, all of the others to begin with; rounds until nothing
/// changes. The proved version stops after 256 of them, but a way around a fact is found in 64.
fn find_marks(rows: &[Row], start: u64) -> [u64; 64] {
    let mut marks = std::array::from_fn(|q| if start >> q & 1 == 1 { 0 } else { u64::MAX });
    while round(&mut marks, rows) {}
    marks
}

/// The least share of each fact in what an adder uses, which the new facts that it adds share equally.
fn find_shares(rows: &[Row], start: u64, used: impl Fn(&Row) -> u64) -> [u64; 64] {
    let mut shares = [MOST; 64];
    for row in rows {
        let new = row.adds & !start;
        for p in members(new) {
            shares[p] = shares[p].min(SCALE * used(row) / new.count_ones() as u64);
        }
    }
    shares
}

/// The earliest time of what an action needs that uses the pool.
fn find_opening(rows: &[Row], times: &Times, pool: usize) -> u32 {
    let users = rows.iter().filter(|row| row.pools[pool] > 0);
    users.map(|row| times.of(row.needs)).fold(LATEST, u32::min)
}

/// Whether actions i and j are different, and never overlap: they clash, exceed a pool together, or need what is
/// unreachable together.
fn exclude(job: &Job, rows: &[Row], times: &Times, i: usize, j: usize) -> bool {
    let clash = rows[i].clashes >> j & 1 == 1;
    i != j
        && (clash
            || exceeds(&job.pool, &rows[i].pools, &rows[j].pools)
            || times.of(rows[i].needs | rows[j].needs) == NONE)
}

/// What the actions add that can overlap action i, and action i itself.
fn beside(job: &Job, rows: &[Row], times: &Times, i: usize) -> u64 {
    let others = (0..rows.len()).filter(|&j| !exclude(job, rows, times, i, j));
    others.fold(0, |all, j| all | rows[j].adds)
}

/// For each fact those that are apart from it, of the facts that actions add and that are not there at the start.
fn find_apart(job: &Job, rows: &[Row], times: &Times) -> [u64; 64] {
    let added = rows.iter().fold(0, |all, row| all | row.adds);
    let mut apart = [added & !job.start; 64];
    for i in 0..rows.len() {
        let away = beside(job, rows, times, i);
        for q in members(rows[i].adds) {
            apart[q] &= !away;
        }
    }
    apart
}

/// The least minutes of an action that adds q, and none where nothing is apart from q.
fn find_least(rows: &[Row], apart: u64, q: usize) -> u32 {
    if apart == 0 {
        return 0;
    }
    adders(rows, q).map(|row| row.duration).min().unwrap_or(255)
}
