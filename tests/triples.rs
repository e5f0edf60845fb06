//! Three plans joined through the exported call, from the left and from the right: answers, bytes and peaks are the
//! same.
use crate::cases::Random;
use crate::joins::{ask, some_part};
use crate::plain::Job;
use crate::pools::Given;
use crate::tally::Tally;
use crate::{refused, Case, Lent};

const TRIPLES: [&str; 6] = [
    "a day",
    "a day with an empty part",
    "34 in all three alone",
    "34 in the first two",
    "34 in the last two",
    "34 in the first two and in the last two",
];

pub fn none_seen() -> Tally {
    Tally::new("three plans joined both ways", &TRIPLES)
}

impl Case<'_> {
    /// Three plans that pass 12 to 15, joined both ways into slices of the same bytes: so they are after it. Where two
    /// of them are already too long, so are all three.
    fn triple(&mut self, r: &mut Random, given: &Given, [first, second, third]: [&[u8]; 3]) {
        let first_two = self.join(r, given, [first, second], 96);
        let last_two = self.join(r, given, [second, third], 96);
        let room = 96 + r.below(20) as usize;
        let mut from_left = Lent::new(r, room);
        let mut from_right = from_left.clone();
        let then_third = |two: &Vec<u8>| ask(given.file, two, third, &mut from_left);
        let left = first_two.as_ref().map_or_else(|number| refused(*number), then_third);
        let after_first = |two: &Vec<u8>| ask(given.file, first, two, &mut from_right);
        let right = last_two.as_ref().map_or_else(|number| refused(*number), after_first);
        self.same("three joined from the left", left, right);
        self.same_bytes("slice of three joined from the left", &from_left.around, &from_right.around);
        if from_left.peaks != from_right.peaks {
            self.differs("peaks of three joined", format!("{:?}, {:?}", from_left.peaks, from_right.peaks));
        }
        self.seen.triples.add(match (first_two.is_ok(), last_two.is_ok()) {
            (true, true) if left & 255 == 1 => 2,
            (true, true) => (first.is_empty() || second.is_empty() || third.is_empty()) as usize,
            (false, true) => 3,
            (true, false) => 4,
            (false, false) => 5,
        });
    }

    /// Three plans for the job of an accepted file, which together are short enough or not.
    pub fn triples(&mut self, r: &mut Random, file: &[u8], job: &Result<Job, u64>) {
        let Ok(of_file) = job else { return };
        let share = 1 + r.below(4);
        let parts = [0; 3].map(|_| some_part(r, of_file, share));
        self.triple(r, &Given { file, job }, [&parts[0], &parts[1], &parts[2]]);
    }
}
