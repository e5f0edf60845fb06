//! Places of lists through the exported call, each compared with the plain list.
use crate::cases::{self, Random};
use crate::plain::{self, Job};
use crate::plain_list;
use crate::pools::Given;
use crate::ruhkevois::exported::ruhkevois_list;
use crate::tally::Tally;
use crate::{Case, Lent};

/// The most plans of a list that are gone through here.
const MOST: usize = 60;

const LISTS: [&str; 7] =
    ["none", "the empty one alone", "one with steps", "2 to 5", "6 to 59", "60 or more", "one that begins the next"];
const PLACES: [&str; 6] = ["0", "between", "the last", "the first behind it", "farther behind", "4,294,967,295"];

/// What was seen of lists.
pub struct Seen {
    lists: Tally,
    places: Tally,
}

impl Seen {
    pub fn none() -> Seen {
        Seen {
            lists: Tally::new("lists, by plans", &LISTS),
            places: Tally::new("places of lists with plans", &PLACES),
        }
    }

    pub fn tallies(&self) -> [&Tally; 2] {
        [&self.lists, &self.places]
    }

    fn list(&mut self, plans: &[Vec<u8>]) {
        self.lists.add(match plans.len() {
            0 => 0,
            1 if plans[0].is_empty() => 1,
            1 => 2,
            2..=5 => 3,
            6..MOST => 4,
            _ => 5,
        });
        if plans.windows(2).any(|two| two[1].starts_with(&two[0])) {
            self.lists.add(6);
        }
    }

    fn place(&mut self, plans: &[Vec<u8>], place: u32) {
        let (place, count) = (place as usize, plans.len());
        self.places.add(match place {
            0 => 0,
            _ if place + 1 == count && count < MOST => 2,
            _ if place < count => 1,
            _ if place == count => 3,
            0xffff_ffff => 5,
            _ => 4,
        });
    }
}

/// Places to ask for: of a short list now and then all and the first behind it, else one in it and one behind it. A
/// long list's end isn't known here.
fn some_places(r: &mut Random, plans: &[Vec<u8>]) -> Vec<u32> {
    let count = plans.len() as u32;
    if count == 0 {
        return vec![[0, 1, 0xffff_ffff, r.next() as u32][r.below(4) as usize]];
    }
    let within = r.below(count as u64) as u32;
    if plans.len() == MOST {
        return vec![[0, within][r.below(2) as usize]];
    }
    let farther = within + [64, 1 << 8, 1 << 16, 1 << 31][r.below(4) as usize];
    let behind = [count, farther, 0xffff_ffff][r.below(3) as usize];
    match r.below(4) {
        0 if count < 6 => (0..=count).collect(),
        1 => vec![[0, count - 1][r.below(2) as usize], behind],
        _ => vec![within, behind],
    }
}

impl Case<'_> {
    fn list(&mut self, r: &mut Random, given: &Given, plans: &[Vec<u8>], place: u32, room: usize) {
        let mut lent = Lent::new(r, room);
        let (out, peaks) = (lent.out(), lent.peaks());
        let answer = unsafe { ruhkevois_list(given.file.as_ptr(), given.file.len(), place, out, room, peaks) };
        let plan = given.job.as_ref().map_err(|n| *n).and_then(|_| plain_list::at(plans, place, room));
        self.same_plan("list", answer, &lent, given.job, &plan);
    }

    /// Some places of a small job's list. One that the plain list gives up is not asked.
    fn some_of_list(&mut self, r: &mut Random, file: &[u8]) {
        let job = plain::read(file);
        let Some(plans) = plain_list::list(job.as_ref().ok().expect("a job"), MOST) else { return };
        self.seen.lists.list(&plans);
        for place in some_places(r, &plans) {
            let room = 96 + r.below(20) as usize;
            self.list(r, &Given { file, job: &job }, &plans, place, room);
            if !plans.is_empty() {
                self.seen.lists.place(&plans, place);
            }
        }
    }

    /// Places of one small job's list in many, or of a day of trips; of other files where no list is needed: they are
    /// refused, or the slice is too short.
    pub fn lists(&mut self, r: &mut Random, file: &[u8], job: &Result<Job, u64>, is_small: bool) {
        if is_small && job.is_ok() && r.one_in(3) {
            let trips = r.one_in(3).then(|| cases::file(&cases::trips(r)));
            return self.some_of_list(r, trips.as_deref().unwrap_or(file));
        }
        let (place, most) = (r.next() as u32, if job.is_ok() { 96 } else { 120 });
        let room = [95, r.below(most) as usize][r.below(2) as usize];
        self.list(r, &Given { file, job }, &[], place, room);
    }
}
