//! Files of each form with both heads, gone through one by one: every length, every byte of the contents, every
//! handover, every shortest length, every reserve, and bodies of other lengths behind contents that say so.
use crate::cases::{self, Random};
use crate::plain::{self, Form, Job, Rule};

/// A small job with so many pools and a store, in six entries, that both rules accept.
fn job_with(pools: usize) -> Job {
    let mut jobs = (0..).map(|seed| cases::errands(&mut Random::new(seed)));
    let accepted = |job: &Job| Rule::BOTH.iter().all(|&rule| plain::read(&cases::file(&under(job, rule))).is_ok());
    let job = jobs.find(|job| job.pools == pools && job.stores > 0 && accepted(job));
    in_form(&job.expect("a job"), Form::Six)
}

fn under(job: &Job, rule: Rule) -> Job {
    Job { rule, ..cases::copy(job) }
}

fn in_form(job: &Job, form: Form) -> Job {
    Job { form, ..cases::copy(job) }
}

/// The file cut to each length, and with some bytes more.
fn lengths(file: &[u8]) -> impl Iterator<Item = Vec<u8>> + '_ {
    let lengths = (0..=file.len() + 4).chain([4095, 4096, 4097]);
    lengths.map(|length| file.iter().copied().chain(std::iter::repeat(0)).take(length).collect())
}

/// The file with another number in each byte of the contents, in short files too.
fn contents(file: &[u8]) -> Vec<Vec<u8>> {
    let mut files = Vec::new();
    for at in 0..4 * plain::form_of(file).entries() {
        let byte = file[at];
        for other in [byte.wrapping_add(1), byte.wrapping_sub(1), byte.wrapping_add(4), 0, 1, 16, 20, 24, 255] {
            let mut changed = file.to_vec();
            changed[at] = other;
            files.push(changed.clone());
            files.extend((16..28).map(|length| changed[..length].to_vec()));
        }
    }
    files
}

/// The file with bodies of other lengths, as its contents say: a byte, or four, from each body to each other.
fn bodies(file: &[u8]) -> Vec<Vec<u8>> {
    let (sizes, bytes) = cases::parts(file);
    let mut files = Vec::new();
    for from in 0..sizes.len() {
        for to in 0..sizes.len() {
            for moved in [1, 4].map(|moved| sizes[from].min(moved)) {
                let mut other = sizes.clone();
                other[from] -= moved;
                other[to] += moved;
                files.push([cases::contents(&other), bytes.clone()].concat());
            }
        }
    }
    files
}

/// The file with a head of each length up to 24: cut, or with bytes behind that are 1.
fn heads(file: &[u8]) -> impl Iterator<Item = Vec<u8>> + '_ {
    (0..=24).map(|length| cases::with_head_of(file, length, 1))
}

/// The file with each reserve.
fn reserves(job: &Job) -> impl Iterator<Item = Vec<u8>> + '_ {
    (0..=255).map(|reserve| cases::file(&Job { rule: Rule::Hourly, reserve, ..cases::copy(job) }))
}

/// The file with a body more, of each length up to this one and of bytes that are 1: the fifth, or the sixth.
fn with_another_body(job: &Job, most: usize) -> Vec<Vec<u8>> {
    let (sizes, bytes) = cases::parts(&cases::file(job));
    let with = |length: usize| [cases::contents(&[&sizes[..], &[length]].concat()), bytes.clone(), vec![1; length]];
    (0..=most).map(|length| with(length).concat()).collect()
}

/// The file with each shortest length of each action, which is as long as it was or as can be.
fn shortest_lengths(job: &Job) -> Vec<Vec<u8>> {
    let mut files = Vec::new();
    for n in 0..job.actions.len() {
        for longest in [job.actions[n].duration, 255] {
            for minutes in 0..=255 {
                let mut other = cases::copy(job);
                (other.actions[n].duration, other.shortest[n]) = (longest, minutes);
                files.push(cases::file(&other));
            }
        }
    }
    files
}

/// The file with each handover of each pool.
fn handovers(job: &Job) -> Vec<Vec<u8>> {
    let mut files = Vec::new();
    for k in 0..job.pools {
        for minutes in 0..=255 {
            let mut other = cases::copy(job);
            other.handovers[k] = minutes;
            files.push(cases::file(&other));
        }
    }
    files
}

/// Files about jobs with each number of pools, in each form and with both heads.
pub fn every_file() -> Vec<Vec<u8>> {
    let mut files = Vec::new();
    for job in (0..=4).map(job_with) {
        for form in [Form::Four, Form::Five, Form::Six] {
            for rule in Rule::BOTH {
                let file = cases::file(&under(&in_form(&job, form), rule));
                files.extend(lengths(&file));
                files.extend(contents(&file));
                files.extend(bodies(&file));
                files.extend(heads(&file));
            }
            files.extend(reserves(&in_form(&job, form)));
        }
        files.extend(with_another_body(&in_form(&job, Form::Four), 8));
        files.extend(with_another_body(&in_form(&job, Form::Five), 70));
        files.extend(handovers(&in_form(&job, Form::Five)));
        files.extend(handovers(&job));
        files.extend(shortest_lengths(&job));
    }
    files
}
