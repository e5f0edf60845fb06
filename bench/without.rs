//! The rules that the plain search can go without: it then visits more states, and finds the same ends.

/// For each rule whether the search goes without it; the default is to go by all of them.
#[derive(Clone, Copy, Default)]
pub struct Without {
    pub drop: bool,     // a step must add a wanted fact that no other step provides
    pub shift: bool,    // something must keep a step from stopping a minute later
    pub reached: bool,  // what running steps need can be there by the start of each
    pub carried: bool,  // what no action left adds can hold at the event minute before; else, at the state's own minute
    pub longest: bool,  // the longest action is tried first; else, the last
    pub steps: bool,    // steps suffice for the shares of what is missing
    pub stores: bool,   // stores suffice for the shares of what is missing
    pub pools: bool,    // the pools' minutes suffice for the shares of what is missing
    pub openings: bool, // the minutes of a pool count from its opening; else, from minute 0
    pub clique: bool,   // minutes suffice for a clique of what is missing
}

impl Without {
    /// Whether the search goes without the rule of this name; none where no rule has it.
    fn flag(&mut self, rule: &str) -> Option<&mut bool> {
        match rule {
            "drop" => Some(&mut self.drop),
            "shift" => Some(&mut self.shift),
            "reached" => Some(&mut self.reached),
            "carried" => Some(&mut self.carried),
            "longest" => Some(&mut self.longest),
            "steps" => Some(&mut self.steps),
            "stores" => Some(&mut self.stores),
            "pools" => Some(&mut self.pools),
            "openings" => Some(&mut self.openings),
            "clique" => Some(&mut self.clique),
            _ => None,
        }
    }

    /// Leaves the rules of these names out; none where a name is of no rule.
    pub fn rules<'n>(names: impl IntoIterator<Item = &'n str>) -> Option<Without> {
        let mut without = Without::default();
        for name in names {
            *without.flag(name)? = true;
        }
        Some(without)
    }
}
