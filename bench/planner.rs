//! A plain Rust version of the planner: the proved search's rules in the same order, so that it visits the same nodes,
//! one for each call of `regress`. A day may have begun: its steps that stand before the first free place are kept, and
//! the search is for the others. It reads the whole day's tables. It can go without some of the rules.
use crate::landmarks::{Landmarks, SCALE};
use crate::plain::{self, members, Job, Times};
use crate::rows::{self, exceeds, Row};
use crate::without::Without;
use std::time::{Duration, Instant};

const LIMIT: Duration = Duration::from_secs(10);
const STEPS: usize = 32;

/// How to search: the rules left out, and the nodes after which a day is given up; ten seconds where none are named.
#[derive(Clone, Copy, Default)]
pub struct Way {
    pub without: Without,
    pub nodes: Option<u64>,
}

/// The limit passed before the search ended.
#[derive(Debug)]
pub struct Late;

#[derive(Clone, Copy, Default)]
pub struct Step {
    pub action: u8,
    pub start: u16,
}

/// The steps of a plan's bytes.
fn steps_of(plan: &[u8]) -> impl Iterator<Item = Step> + '_ {
    plan.chunks_exact(3).map(|x| Step { action: x[0], start: u16::from_le_bytes([x[1], x[2]]) })
}

/// The bytes of a plan of these steps.
pub fn bytes_of(steps: &[Step]) -> Vec<u8> {
    steps.iter().flat_map(|step| [step.action, step.start as u8, (step.start >> 8) as u8]).collect()
}

/// What has begun of a day: the kept steps, and the first free place, before which they stand: a minute, and the least
/// action that may start at it.
#[derive(Clone, Default)]
pub struct Begun {
    kept: Vec<Step>,
    first: u32,
    least: usize,
}

impl Begun {
    /// What has begun of the current plan at a minute.
    pub fn at(plan: &[u8], minute: u32) -> Begun {
        let kept = steps_of(plan).filter(|step| (step.start as u32) < minute).collect();
        Begun { kept, first: minute, least: 0 }
    }

    /// These steps, which stand in order, and the place behind the last one.
    pub fn with(steps: &[Step]) -> Begun {
        let last = steps[steps.len() - 1];
        Begun { kept: steps.to_vec(), first: last.start as u32, least: last.action as usize + 1 }
    }
}

/// Sets of a minute: by their numbers the actions that run in the minute before and those that start now, and facts.
#[derive(Clone, Copy, Default)]
struct Minute {
    running: u64,
    held: u64, // what the steps that run in the minute before need
    starting: u64,
    needed: u64, // what the steps that start now need
    across: u64, // what the steps that run now need
    added: u64,  // what the steps that stop now add
}

/// What the chosen steps use: of each store over all; of each pool in the last minute of the share of a step that stops
/// now, and in the minute in which that share is free again. Without handovers: in the minute before, and now.
#[derive(Clone, Copy, Default)]
struct Uses {
    before: [u64; 4],
    now: [u64; 4],
    spent: [u64; 4],
}

/// The chosen steps, the minute that the search stands at and the facts wanted then; the steps from `since` on stop at
/// that minute, and what more than one of them adds is `twice`.
#[derive(Clone, Copy, Default)]
struct State {
    count: usize,
    steps: [Step; STEPS],
    minute: u32,
    wanted: u64,
    at: Minute,
    uses: Uses,
    twice: u64,
    since: usize,
}

impl State {
    fn steps(&self) -> &[Step] {
        &self.steps[..self.count]
    }
}

/// The sums with the amounts added of those pools whose handover is longer than this.
fn plus(sums: &mut [u64; 4], amounts: &[u64; 4], handovers: &[i32; 4], longer: i32) {
    for k in 0..4 {
        sums[k] += if longer < handovers[k] { amounts[k] } else { 0 };
    }
}

/// The search for plans of a job: its handovers, pool by pool, and how long before a start there are events; how much
/// of its stores may be used up; its tables; what has begun and what the kept steps add; the rules left out, the
/// horizon, the nodes so far, and the number of nodes and the instant at which it gives up.
pub struct Search<'a> {
    pub job: &'a Job,
    handovers: [i32; 4],
    waits: Vec<u32>,
    allowed: [u32; 4],
    pub rows: Vec<Row>,
    landmarks: Landmarks,
    times: Times,
    begun: Begun,
    given: u64,
    without: Without,
    horizon: u32,
    pub nodes: u64,
    most: u64,
    until: Option<Instant>,
}

impl Search<'_> {
    /// Searches from now on for plans that keep what has begun.
    pub fn begin(&mut self, begun: Begun) {
        self.given = self.adds(begun.kept.iter());
        self.begun = begun;
    }

    pub fn row(&self, step: &Step) -> &Row {
        &self.rows[step.action as usize]
    }

    pub fn stop(&self, step: &Step) -> u32 {
        step.start as u32 + self.row(step).duration
    }

    /// Adds a step's uses of pools in the last minute of the share of a step that stops at minute t.
    fn join_before(&self, sums: &mut [u64; 4], step: &Step, t: u32) {
        if t <= self.stop(step) {
            plus(sums, &self.row(step).pools, &self.handovers, step.start as i32 - t as i32);
        }
    }

    /// Adds a step to the sets and sums of the state's minute.
    fn join(&self, st: &mut State, step: &Step) {
        let row = self.row(step);
        let (t, start, stop) = (st.minute, step.start as u32, self.stop(step));
        let one = 1 << step.action;
        let (at, uses) = (&mut st.at, &mut st.uses);
        if start < t && t <= stop {
            at.running |= one;
            at.held |= row.needs;
        }
        if start == t {
            at.starting |= one;
            at.needed |= row.needs;
        }
        if start <= t && t < stop {
            at.across |= row.needs;
        }
        if stop == t {
            at.added |= row.adds;
        }
        self.join_before(&mut uses.before, step, t);
        if t < stop {
            plus(&mut uses.now, &row.pools, &self.handovers, start as i32 - t as i32 - 1);
        }
        for k in 0..4 {
            uses.spent[k] += row.stores[k];
        }
    }

    /// The state with these steps at a minute, where nothing is wanted.
    fn stand(&self, steps: &[Step], minute: u32) -> State {
        let mut st = State { count: steps.len(), minute, since: steps.len(), ..State::default() };
        st.steps[..steps.len()].copy_from_slice(steps);
        for step in steps {
            self.join(&mut st, step);
        }
        st
    }

    /// The kept steps that stop after minute s and by minute t.
    fn kept_within(&self, s: u32, t: u32) -> impl Iterator<Item = &Step> {
        self.begun.kept.iter().filter(move |step| s < self.stop(step) && self.stop(step) <= t)
    }

    /// Whether the sets of an action allow it to stop now: it adds a wanted fact that no other step provides, deletes
    /// none, and clashes with no step that runs in the minute before.
    fn sets_allow(&self, st: &State, row: &Row) -> bool {
        let provided = st.at.held | st.at.added | row.needs;
        row.adds & st.wanted != 0
            && row.clashes & st.at.running == 0
            && (self.without.drop || row.adds & !provided & st.wanted != 0)
            && row.deletes & st.wanted == 0
    }

    /// Whether nothing keeps an action from stopping a minute later.
    fn movable(&self, st: &State, row: &Row) -> bool {
        st.minute < self.horizon
            && row.adds & st.at.needed == 0
            && row.clashes & st.at.starting == 0
            && !exceeds(&self.job.pool, &st.uses.now, &row.pools)
    }

    /// Whether an action leaves the pools and stores enough.
    fn affordable(&self, st: &State, row: &Row) -> bool {
        !exceeds(&self.job.pool, &st.uses.before, &row.pools) && !exceeds(&self.allowed, &st.uses.spent, &row.stores)
    }

    /// What the chosen steps use of each pool in the last minute of the share of a step that stops at minute t.
    fn uses_before(&self, st: &State, t: u32) -> [u64; 4] {
        let mut sums = [0; 4];
        st.steps().iter().for_each(|step| self.join_before(&mut sums, step, t));
        sums
    }

    /// Whether an action from a start on can run beside a kept step: where that stops meanwhile, they do not clash; in
    /// the last minute of each of its shares that the action's own meets, the pool suffices.
    fn runs_beside(&self, st: &State, row: &Row, start: u32, step: &Step) -> bool {
        let stop = self.stop(step);
        let uses = self.uses_before(st, stop);
        let suffices = |k: usize| uses[k] + row.pools[k] <= self.job.pool[k] as u64;
        let meets = |k: usize| (start as i32) < stop as i32 + self.handovers[k];
        !(start < stop && row.clashes >> step.action & 1 == 1) && (0..self.job.pools).all(|k| !meets(k) || suffices(k))
    }

    /// Whether an action that stops at the state's minute can run beside each kept step that stops before, and whose
    /// shares last into it.
    fn beside_kept(&self, st: &State, row: &Row) -> bool {
        let start = st.minute - row.duration;
        let longest = self.waits[self.waits.len() - 1];
        let mut kept = self.kept_within(start.saturating_sub(longest), st.minute - 1);
        kept.all(|step| self.runs_beside(st, row, start, step))
    }

    /// Whether the step of action i that stops at the state's minute stands at the first free place or behind it.
    fn new_step(&self, st: &State, i: usize) -> bool {
        let stop = self.begun.first + self.rows[i].duration;
        stop < st.minute || stop == st.minute && self.begun.least <= i
    }

    /// Whether action i may stop at the state's minute.
    fn may_stop(&self, st: &State, i: usize) -> bool {
        let row = &self.rows[i];
        self.sets_allow(st, row)
            && st.count < STEPS
            && self.new_step(st, i)
            && (self.without.shift || !self.movable(st, row))
            && self.affordable(st, row)
            && self.beside_kept(st, row)
    }

    /// Those of the undecided actions that may stop at the state's minute.
    fn candidates(&self, st: &State, undecided: u64) -> u64 {
        let actions = members(undecided).take_while(|&i| i < self.rows.len());
        actions.filter(|&i| self.may_stop(st, i)).fold(0, |set, i| set | 1 << i)
    }

    /// The state with the step, which stops at its minute.
    fn take(&self, st: &State, step: Step) -> State {
        let mut next = *st;
        next.twice |= st.at.added & self.row(&step).adds;
        next.steps[st.count] = step;
        next.count += 1;
        self.join(&mut next, &step);
        next
    }

    /// Whether each step that stops now adds a wanted fact that no other step provides.
    fn all_needed(&self, st: &State) -> bool {
        let provided = st.at.held | st.twice;
        st.steps()[st.since..].iter().all(|step| self.row(step).adds & !provided & st.wanted != 0)
    }

    /// What the chosen steps need that run in minute t.
    fn needs_at(&self, st: &State, t: u32) -> u64 {
        let runs = |step: &&Step| step.start as u32 <= t && t < self.stop(step);
        st.steps().iter().filter(runs).fold(0, |set, step| set | self.row(step).needs)
    }

    /// Whether what the steps need that run at a start from this minute on, before the state's, can be there by then.
    fn all_reached(&self, st: &State, from: u32) -> bool {
        let starts = st.steps().iter().map(|step| step.start as u32);
        starts.filter(|&s| from <= s && s < st.minute).all(|s| self.times.by(self.needs_at(st, s), s))
    }

    /// The event minute before: the last event of a chosen step, or the first free minute. The events of a step are its
    /// start and, for each pool, the stop of a step whose share is free again then.
    fn event(&self, st: &State) -> u32 {
        let mut latest = self.begun.first;
        for step in st.steps() {
            for wait in &self.waits {
                let event = (step.start as u32).saturating_sub(*wait);
                latest = if event < st.minute { latest.max(event) } else { latest };
            }
        }
        latest
    }

    /// What steps add.
    fn adds<'s>(&self, steps: impl Iterator<Item = &'s Step>) -> u64 {
        steps.fold(0, |set, step| set | self.row(step).adds)
    }

    /// Whether what must hold at the state's minute can hold by then.
    fn timely(&self, st: &State) -> bool {
        self.times.by(st.wanted | st.at.across, st.minute)
    }

    /// Whether what is wanted, and added neither now nor by the actions left nor by kept steps since the event minute
    /// before, and what the steps that run in the minute before need, can hold at that event minute.
    fn in_time(&self, st: &State, left: u64) -> bool {
        let starts = members(left).map(|i| st.minute - self.rows[i].duration);
        let event = starts.fold(self.event(st), u32::max);
        let now = members(left).fold(st.at.added, |set, i| set | self.rows[i].adds);
        let added = now | self.adds(self.kept_within(event, st.minute));
        self.times.by(st.wanted & !added | st.at.held, event)
    }

    /// Whether there are steps enough left for what is missing.
    fn steps_suffice(&self, st: &State, missing: u64) -> bool {
        self.landmarks.of_steps(missing) + SCALE * st.steps().len() as u64 <= SCALE * STEPS as u64
    }

    /// Whether a store has enough left for what is missing.
    fn store_suffices(&self, st: &State, missing: u64, k: usize) -> bool {
        let used = self.landmarks.of_store(k, missing) + SCALE * st.uses.spent[k];
        used <= SCALE * self.allowed[k] as u64
    }

    /// What the chosen steps use of a pool from a minute on and before the state's, each minute for itself.
    fn used_before(&self, st: &State, k: usize, from: u32) -> u64 {
        let begin = |step: &Step| from.max(step.start as u32);
        let minutes = |step: &Step| self.stop(step).min(st.minute).saturating_sub(begin(step));
        st.steps().iter().map(|step| self.row(step).pools[k] * minutes(step) as u64).sum()
    }

    /// Whether a pool has minutes enough left for what is missing.
    fn pool_suffices(&self, st: &State, missing: u64, k: usize) -> bool {
        let from = if self.without.openings { 0 } else { self.landmarks.opening(k) };
        let used = self.landmarks.of_pool(k, missing) + SCALE * self.used_before(st, k, from);
        used <= SCALE * self.job.pool[k] as u64 * st.minute.saturating_sub(from) as u64
    }

    /// Whether there are minutes enough left for a clique of what is missing.
    fn minutes_suffice(&self, st: &State, missing: u64) -> bool {
        self.landmarks.minutes(missing) <= st.minute - self.begun.first
    }

    /// Whether steps, stores, pools and minutes suffice for what is missing: the landmarks of what must hold at the
    /// state's minute, without what the kept steps add.
    fn suffices(&self, st: &State) -> bool {
        let missing = self.landmarks.of(st.wanted | st.at.across) & !self.given;
        let without = &self.without;
        (without.steps || self.steps_suffice(st, missing))
            && (without.stores || (0..self.job.stores).all(|k| self.store_suffices(st, missing, k)))
            && (without.pools || (0..self.job.pools).all(|k| self.pool_suffices(st, missing, k)))
            && (without.clique || self.minutes_suffice(st, missing))
    }

    /// What the chosen steps add that stop after minute s and by the state's.
    fn gone(&self, st: &State, s: u32) -> u64 {
        self.adds(st.steps().iter().filter(|step| s < self.stop(step) && self.stop(step) <= st.minute))
    }

    /// The state at the event minute before.
    fn back(&self, st: &State) -> State {
        let minute = self.event(st);
        let mut before = self.stand(st.steps(), minute);
        before.wanted = st.wanted & !self.gone(st, minute) | before.at.needed;
        before
    }

    /// What the checker says of the plan that the steps are, brought into order: its end, or the refusal.
    pub fn check(&self, steps: &[Step]) -> Result<u64, u64> {
        let mut steps = steps.to_vec();
        steps.sort_by_key(|step| (step.start, step.action));
        plain::check(self.job, &bytes_of(&steps))
    }

    /// The end of the plan that the steps are, where the checker accepts it and it ends by the horizon.
    fn finish(&self, steps: &[Step]) -> Option<u32> {
        let end = self.check(steps).ok()? as u32;
        (end <= self.horizon).then_some(end)
    }

    /// The longest of the actions, of equally long ones the last.
    fn longest(&self, left: u64) -> usize {
        members(left).max_by_key(|&i| self.rows[i].duration).expect("an action")
    }

    /// The action to be tried first: the longest or, without that rule, the last.
    fn tried_first(&self, left: u64) -> usize {
        if self.without.longest {
            return left.ilog2() as usize;
        }
        self.longest(left)
    }

    /// With action i stopping at the state's minute, and the actions left not decided.
    fn attempt(&mut self, st: &State, i: usize, left: u64) -> Result<Option<u32>, Late> {
        let start = st.minute - self.rows[i].duration;
        let next = self.take(st, Step { action: i as u8, start: start as u16 });
        let needed = self.without.drop || self.all_needed(&next);
        if needed && (self.without.reached || self.all_reached(&next, start)) {
            return self.choose(&next, left);
        }
        Ok(None)
    }

    /// Decides for the undecided actions which stop at the state's minute, one after the other; then goes back to the
    /// event before.
    fn choose(&mut self, st: &State, undecided: u64) -> Result<Option<u32>, Late> {
        let mut left = self.candidates(st, undecided);
        while self.without.carried || self.in_time(st, left) {
            if left == 0 {
                let before = self.back(st);
                return self.regress(&before);
            }
            let i = self.tried_first(left);
            left ^= 1 << i;
            let end = self.attempt(st, i, left)?;
            if end.is_some() {
                return Ok(end);
            }
        }
        Ok(None)
    }

    /// Counts a node, unless there were as many as there may be, and looks at the clock at some.
    fn count(&mut self) -> Result<(), Late> {
        if self.nodes == self.most {
            return Err(Late);
        }
        self.nodes += 1;
        if self.nodes % 1024 == 0 && self.until.is_some_and(|until| until < Instant::now()) {
            return Err(Late);
        }
        Ok(())
    }

    /// The end of a plan from a state, whose minute is an event.
    fn regress(&mut self, st: &State) -> Result<Option<u32>, Late> {
        self.count()?;
        if st.minute <= self.begun.first {
            return Ok(self.finish(st.steps()));
        }
        if self.without.carried && !self.timely(st) || !self.suffices(st) {
            return Ok(None);
        }
        self.choose(st, u64::MAX)
    }

    /// The end of a plan that ends by the horizon. With no free minute left there are the kept steps, and no node.
    fn solve(&mut self, horizon: u32) -> Result<Option<u32>, Late> {
        self.horizon = horizon;
        let kept = &self.begun.kept;
        if horizon <= self.begun.first {
            return Ok(self.finish(kept));
        }
        let st = State { wanted: self.job.goal, ..self.stand(kept, horizon) };
        self.regress(&st)
    }

    /// From this minute up to the deadline with doubling strides: the minute before which no plan ends, and the end of
    /// the first that is found.
    fn ascend(&mut self, low: u32) -> Result<(u32, Option<u32>), Late> {
        let deadline = self.job.deadline as u32;
        let (mut bound, mut horizon, mut stride) = (low, low, 1);
        loop {
            let end = self.solve(horizon)?;
            if end.is_some() || horizon == deadline {
                return Ok((bound, end));
            }
            bound = horizon + 1;
            horizon = deadline.min(horizon + stride);
            stride *= 2;
        }
    }

    /// The least end, from an end and a lower bound: by halves.
    fn descend(&mut self, mut low: u32, mut end: u32) -> Result<u32, Late> {
        while low < end {
            let middle = low + (end - low) / 2;
            match self.solve(middle)? {
                Some(earlier) => end = earlier,
                None => low = middle + 1,
            }
        }
        Ok(end)
    }

    /// The end of a plan that begins with these steps and ends by the horizon; new ones stand behind them.
    pub fn solve_behind(&mut self, steps: &[Step], horizon: u32) -> Result<Option<u32>, Late> {
        self.begin(Begun::with(steps));
        self.solve(horizon)
    }

    /// The least end of a plan: by the first free minute that of the kept steps, then of longer ones.
    pub fn shortest(&mut self) -> Result<Option<u32>, Late> {
        let deadline = self.job.deadline as u32;
        let kept = self.solve(self.begun.first.min(deadline))?;
        if kept.is_some() || deadline <= self.begun.first {
            return Ok(kept);
        }
        let low = self.times.of(self.job.goal).max(self.begun.first + 1);
        if deadline < low {
            return Ok(None);
        }
        let (bound, end) = self.ascend(low)?;
        end.map(|end| self.descend(bound, end)).transpose()
    }
}

/// The different handovers of the job's pools, and none: so long before a start are events.
fn waits(job: &Job) -> Vec<u32> {
    let mut waits: Vec<u32> = (0..job.pools).map(|k| job.handover(k)).chain([0]).collect();
    waits.sort();
    waits.dedup();
    waits
}

/// The search for plans of the job, of which nothing has begun.
pub fn search<'a>(job: &'a Job, way: &Way) -> Search<'a> {
    let until = way.nodes.is_none().then(|| Instant::now() + LIMIT);
    let rows = rows::rows(job);
    let times = plain::times(job);
    let landmarks = Landmarks::new(job, &rows, &times);
    Search {
        job,
        handovers: [0, 1, 2, 3].map(|k| job.handover(k) as i32),
        waits: waits(job),
        allowed: [0, 1, 2, 3].map(|k| job.allowed(k)),
        rows,
        landmarks,
        times,
        begun: Begun::default(),
        given: 0,
        without: way.without,
        horizon: 0,
        nodes: 0,
        most: way.nodes.unwrap_or(u64::MAX),
        until,
    }
}

/// An end as printed: the number where there is no plan; - where none was found in time.
fn printed(end: Result<Option<u32>, Late>, no_plan: u32) -> String {
    end.map_or("-".to_string(), |end| end.unwrap_or(no_plan).to_string())
}

/// What came of a job file: its end as printed (22: no plan; -: given up), and the nodes.
pub fn plan(file: &[u8], way: &Way) -> (String, u64) {
    let job = match plain::read(file) {
        Ok(job) => job,
        Err(number) => return (number.to_string(), 0),
    };
    let mut search = search(&job, way);
    (printed(search.shortest(), 22), search.nodes)
}

/// What came of a begun day and a new goal: its end as printed (35: no plan; -: not planned in time), and the nodes.
pub fn replan(job: &Job, begun: Begun) -> (String, u64) {
    let mut search = search(job, &Way::default());
    search.begin(begun);
    (printed(search.shortest(), 35), search.nodes)
}
