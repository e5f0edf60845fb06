//! What handovers changed in the cases seen: each job with handovers beside its twin of four entries, which has none.
use crate::cases;
use crate::plain::{self, Form, Job};
use crate::simple_planner;

/// Plans refused for a handover alone, accepted plans with a higher peak, days that end later, jobs without a plan, and
/// begun days in which a share is handed over at the minute.
#[derive(Default)]
pub struct Seen {
    refused: u64,
    higher: u64,
    later: u64,
    no_plan: u64,
    begun: u64,
}

/// The job without handovers, where it has any.
fn twin(job: &Job) -> Option<Job> {
    let has_any = (0..job.pools).any(|k| job.handover(k) > 0);
    has_any.then(|| Job { form: Form::Four, ..cases::copy(job) })
}

impl Seen {
    /// A plan that was checked.
    pub fn checked(&mut self, job: &Job, plan: &[u8], answer: Result<u64, u64>) {
        let Some(twin) = twin(job) else { return };
        match answer {
            Ok(_) => self.higher += (plain::peaks(job, plan) != plain::peaks(&twin, plan)) as u64,
            Err(17) => self.refused += (plain::check(&twin, plan) != Err(17)) as u64,
            Err(_) => {}
        }
    }

    /// A job with this least end, or without a plan.
    pub fn planned(&mut self, job: &Job, end: Option<u16>) {
        match (end, twin(job).and_then(|twin| simple_planner::least_end(&twin))) {
            (Some(end), Some(earlier)) => self.later += (earlier < end) as u64,
            (None, Some(_)) => self.no_plan += 1,
            _ => {}
        }
    }

    /// A day that has begun with these steps, as start and action, and is planned anew at a minute.
    pub fn replanned(&mut self, job: &Job, kept: &[(u32, usize)], minute: u32) {
        let handed_over = |start: u32, action: usize, k: usize| {
            let stop = start + job.actions[action].duration as u32;
            job.actions[action].pools[k] > 0 && stop <= minute && minute < stop + job.handover(k)
        };
        self.begun += kept.iter().any(|step| (0..job.pools).any(|k| handed_over(step.0, step.1, k))) as u64;
    }

    pub fn print(&self) {
        println!(
            "handovers: plans refused for them alone x {}, higher peaks x {}, later ends x {}, no plan x {}, \
             begun days with a share handed over x {}",
            self.refused, self.higher, self.later, self.no_plan, self.begun
        );
    }
}
