//! What the hourly rule changed in the cases seen: each job under it beside its twin with a head of 19 bytes. And jobs
//! at the limit of a store, gone through one by one.
use crate::cases;
use crate::plain::{self, Action, Form, Job, Rule};
use crate::plain_price::{self, Rates};
use crate::simple_planner;
use crate::Case;

/// Jobs refused by 26 for the rule alone; plans refused by 18 for the hours, or for the reserve alone; prices that
/// rose, days that end later, and jobs without a plan; begun days in which a step has used up more.
#[derive(Default)]
pub struct Seen {
    refused: u64,
    hours: u64,
    reserve: u64,
    dearer: u64,
    later: u64,
    no_plan: u64,
    begun: u64,
}

/// The job under the other rule, where it is under the hourly one.
fn twin(job: &Job) -> Option<Job> {
    (job.rule == Rule::Hourly).then(|| Job { rule: Rule::Once, ..cases::copy(job) })
}

impl Seen {
    /// A file that was read, and refused by this number.
    pub fn read(&mut self, file: &[u8], number: u64) {
        let accepted = || plain::read(&cases::with_head_of(file, Rule::Once.head(), 0)).is_ok();
        self.refused += (number == 26 && accepted()) as u64;
    }

    /// A plan that was checked.
    pub fn checked(&mut self, job: &Job, plan: &[u8], answer: Result<u64, u64>) {
        let is_18 = |job: &Job| plain::check(job, plan) == Err(18);
        if answer != Err(18) || twin(job).is_none_or(|twin| is_18(&twin)) {
            return;
        }
        let for_hours = is_18(&Job { reserve: 0, ..cases::copy(job) });
        *if for_hours { &mut self.hours } else { &mut self.reserve } += 1;
    }

    /// A plan with this price.
    pub fn priced(&mut self, job: &Job, plan: &[u8], rates: &Rates, cents: u64) {
        let lower = |twin: &Job| plain_price::price(twin, plan, rates).is_ok_and(|old| old < cents);
        self.dearer += twin(job).is_some_and(|twin| lower(&twin)) as u64;
    }

    /// A job with this least end, or without a plan.
    pub fn planned(&mut self, job: &Job, end: Option<u16>) {
        match (end, twin(job).and_then(|twin| simple_planner::least_end(&twin))) {
            (Some(end), Some(earlier)) => self.later += (earlier < end) as u64,
            (None, Some(_)) => self.no_plan += 1,
            _ => {}
        }
    }

    /// A day that has begun with these steps, as start and action, and is planned anew.
    pub fn replanned(&mut self, job: &Job, kept: &[(u32, usize)]) {
        let uses_more = |a: &Action| (0..job.stores).any(|k| job.charged(a, k) > a.stores[k]);
        self.begun += kept.iter().any(|step| uses_more(&job.actions[step.1])) as u64;
    }

    pub fn print(&self) {
        println!(
            "hourly rule: jobs refused for it alone x {}, plans refused for the hours x {}, for the reserve alone x \
             {}, higher prices x {}, later ends x {}, no plan x {}, begun days that have used up more x {}",
            self.refused, self.hours, self.reserve, self.dearer, self.later, self.no_plan, self.begun
        );
    }
}

/// One action of this length, which uses this much of a store.
fn one_action(duration: u8, used: u32, store: u32, reserve: u8) -> Job {
    Job {
        form: Form::Four,
        rule: Rule::Hourly,
        reserve,
        facts: 0,
        deadline: 1440,
        start: 0,
        goal: 0,
        pools: 0,
        stores: 1,
        pool: [0; 4],
        store: [store, 0, 0, 0],
        actions: vec![Action { duration, stores: [used, 0, 0, 0], ..Action::default() }],
        handovers: [0; 4],
        shortest: [1; 64],
    }
}

impl Case<'_> {
    /// The job under both rules, with so many steps of its action one after the other: read, checked and priced.
    fn in_turn(&mut self, job: &Job, steps: u32) {
        let starts = (0..steps).map(|n| n * job.actions[0].duration as u32);
        let plan: Vec<u8> = starts.flat_map(|start| [0, start as u8, (start >> 8) as u8]).collect();
        let rates = Rates { stores: [7; 4], ..Rates::default() };
        for rule in Rule::BOTH {
            let file = cases::file(&Job { rule, ..cases::copy(job) });
            let job = plain::read(&file);
            self.read(&file, &job);
            self.check(&file, &job, &plan);
            self.price(&file, &job, &plan, &rates);
        }
    }
}

/// Every length and every reserve: the most of a store that a step may use, and one more; as many steps as a store
/// allows, and one more.
pub fn one_by_one(case: &mut Case) {
    let lengths = (1..=255).flat_map(|duration| [0, 50].map(|reserve| (duration, reserve)));
    let reserves = (0..=50).flat_map(|reserve| [60, 61].map(|duration| (duration, reserve)));
    for (duration, reserve) in lengths.chain(reserves) {
        for store in [0, 1, 2, 3, 7, 10, 99, 100, 101, 999_999, 1_000_000] {
            let unit = one_action(duration, 1, store, reserve);
            let most = unit.allowed(0) / unit.charged(&unit.actions[0], 0);
            for used in [most, most + 1] {
                case.in_turn(&one_action(duration, used, store, reserve), 1);
            }
            for steps in [most, most + 1].into_iter().filter(|steps| *steps < 6) {
                case.in_turn(&unit, steps);
            }
        }
    }
}
