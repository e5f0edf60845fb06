//! A plain Rust version of the list of all the shortest days: the proved walk's tests in the same order, over the plain
//! search. It goes place by place, a place for each action in each minute, and takes a step where a listed plan may
//! begin with the steps chosen before and this one.
use crate::plain::{self, members, Job};
use crate::planner::{bytes_of, search, Late, Search, Step, Way};

const STEPS: usize = 32;

/// More minutes than any day has.
const NEVER: u32 = 100_000;

/// The checker's refusal where all rules are kept and the goal is not met.
const GOAL: u64 = 20;

/// What came of a question: there is no plan, the list is not longer than the place, or the steps of the plan there.
pub enum Page {
    NoPlan,
    Ended,
    Plan(Vec<Step>),
}

/// The walk: the search that it asks; the end of all listed plans; for each fact its tail, how many minutes at least
/// pass from the stop of a step that adds it to the end of a plan that has a use for it; and how many places are left
/// before the one asked for.
struct Walk<'a> {
    search: Search<'a>,
    end: u32,
    tails: [u32; 64],
    left: u32,
}

/// The plan at the place asked for, where the walk met it.
type Met = Result<Option<Vec<Step>>, Late>;

fn least(tails: &[u32; 64], set: u64) -> u32 {
    members(set).map(|p| tails[p]).fold(NEVER, u32::min)
}

/// The tails for the job's goal: they fall until none does.
fn tails(search: &Search) -> [u32; 64] {
    let mut tails = std::array::from_fn(|p| if search.job.goal >> p & 1 == 1 { 0 } else { NEVER });
    for _ in 0..64 {
        for row in &search.rows {
            let most = row.duration + least(&tails, row.adds);
            members(row.needs).for_each(|p| tails[p] = tails[p].min(most));
        }
    }
    tails
}

impl Walk<'_> {
    /// Whether what the step needs holds, and something that it adds does not hold yet and can be of use by the end.
    fn needs_allow(&self, held: u64, step: &Step) -> bool {
        let row = self.search.row(step);
        row.needs & !held == 0 && self.search.stop(step) + least(&self.tails, row.adds & !held) <= self.end
    }

    /// What the step adds that no step of another action adds while it runs, or at its stop.
    fn alone(&self, steps: &[Step], step: &Step) -> u64 {
        let running = step.start as u32 + 1..=self.search.stop(step);
        let others = steps.iter().filter(|x| x.action != step.action && running.contains(&self.search.stop(x)));
        others.fold(self.search.row(step).adds, |set, x| set & !self.search.row(x).adds)
    }

    /// Whether each step adds something alone that can be of use by the end.
    fn none_spare(&self, steps: &[Step]) -> bool {
        let tail = |step: &Step| least(&self.tails, self.alone(steps, step));
        steps.iter().all(|step| self.search.stop(step) + tail(step) <= self.end)
    }

    /// Whether the steps keep the rules, whatever the goal. They stop by the end, as their needs allow no others.
    fn rules_allow(&self, steps: &[Step]) -> bool {
        matches!(self.search.check(steps), Ok(_) | Err(GOAL))
    }

    /// Whether an accepted plan that ends by the end begins with the steps.
    fn search_allows(&mut self, steps: &[Step]) -> Result<bool, Late> {
        Ok(self.search.solve_behind(steps, self.end)?.is_some())
    }

    /// Whether the steps are accepted for the goal.
    fn accepted(&self, steps: &[Step]) -> bool {
        self.search.check(steps).is_ok()
    }

    /// The steps without step i.
    fn without(steps: &[Step], i: usize) -> Vec<Step> {
        let mut rest = steps.to_vec();
        rest.remove(i);
        rest
    }

    /// Whether the steps are accepted, and no longer without any single one of them.
    fn listed(&self, steps: &[Step]) -> bool {
        self.accepted(steps) && (0..steps.len()).all(|i| !self.accepted(&Self::without(steps, i)))
    }

    /// The facts that hold at a minute, from those of the minute before.
    fn forward(&self, steps: &[Step], held: u64, minute: u32) -> u64 {
        let ending = || steps.iter().filter(|step| self.search.stop(step) == minute).map(|step| self.search.row(step));
        let lost = ending().fold(0, |set, row| set | row.deletes);
        ending().fold(held & !lost, |set, row| set | row.adds)
    }

    /// Among the listed plans that begin with the steps and then this one.
    fn attempt(&mut self, steps: &[Step], held: u64, step: Step) -> Met {
        if !self.needs_allow(held, &step) {
            return Ok(None);
        }
        let next = [steps, &[step]].concat();
        if !self.none_spare(&next) || !self.rules_allow(&next) || !self.search_allows(&next)? {
            return Ok(None);
        }
        self.walk_on(&next, held, step.start, step.action as usize + 1)
    }

    /// Whether the steps are the plan at the place asked for. Where they are listed, one place less is left.
    fn visit(&mut self, steps: &[Step]) -> bool {
        if !self.listed(steps) {
            return false;
        }
        let here = self.left == 0;
        self.left = self.left.saturating_sub(1);
        here
    }

    /// Among the listed plans that begin with the steps: these themselves first, then place by place, from an action in
    /// a minute on, those that go on with one step more.
    fn walk_on(&mut self, steps: &[Step], mut held: u64, from: u16, mut first: usize) -> Met {
        if self.visit(steps) {
            return Ok(Some(steps.to_vec()));
        }
        if steps.len() == STEPS {
            return Ok(None);
        }
        for start in from..self.end as u16 {
            if from < start {
                held = self.forward(steps, held, start as u32);
            }
            for action in first..self.search.rows.len() {
                let plan = self.attempt(steps, held, Step { action: action as u8, start })?;
                if plan.is_some() {
                    return Ok(plan);
                }
            }
            first = 0;
        }
        Ok(None)
    }
}

/// The plan at a place of the job's list.
pub fn page(job: &Job, place: u32, way: &Way) -> Result<Page, Late> {
    let mut search = search(job, way);
    let Some(end) = search.shortest()? else {
        return Ok(Page::NoPlan);
    };
    let tails = tails(&search);
    let mut walk = Walk { search, end, tails, left: place };
    let plan = walk.walk_on(&[], job.start, 0, 0)?;
    Ok(plan.map_or(Page::Ended, Page::Plan))
}

/// The page as the program `list` prints it.
pub fn printed(job: &Job, page: &Page) -> String {
    let steps = match page {
        Page::NoPlan => return "refused 22\n".to_string(),
        Page::Ended => return "refused 28\n".to_string(),
        Page::Plan(steps) => steps,
    };
    let stop = |step: &Step| step.start as u32 + job.actions[step.action as usize].duration as u32;
    let end = steps.iter().map(stop).max().unwrap_or(0);
    let peaks = plain::peaks(job, &bytes_of(steps));
    let peaks: String = peaks[..job.pools].iter().map(|peak| format!(" {peak}")).collect();
    let lines: String = steps.iter().map(|x| format!("{} {} {}\n", x.start, stop(x), x.action)).collect();
    format!("makespan {end}\nsteps {}\npeak{peaks}\n{lines}", steps.len())
}
