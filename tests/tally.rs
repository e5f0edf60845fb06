//! How often each of some things was seen, by name.
use std::fmt::{Display, Formatter, Result};

pub struct Tally {
    what: &'static str,
    names: &'static [&'static str],
    counts: Vec<u64>,
}

impl Tally {
    pub fn new(what: &'static str, names: &'static [&'static str]) -> Tally {
        Tally { what, names, counts: vec![0; names.len()] }
    }

    /// Once more the thing with the name at this place.
    pub fn add(&mut self, place: usize) {
        self.counts[place] += 1;
    }

    /// What was never seen.
    pub fn never(&self) -> Vec<String> {
        let places = (0..self.names.len()).filter(|&place| self.counts[place] == 0);
        places.map(|place| format!("{}: {}", self.what, self.names[place])).collect()
    }
}

impl Display for Tally {
    fn fmt(&self, f: &mut Formatter) -> Result {
        let counted = self.names.iter().zip(&self.counts).map(|(name, count)| format!("{name} x {count}"));
        write!(f, "{}: {}", self.what, counted.collect::<Vec<String>>().join(", "))
    }
}
