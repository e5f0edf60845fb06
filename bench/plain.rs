//! Plain Rust versions of the reader, the writer, the checker, the peaks and the earliest times, written for speed and
//! from the document alone. The benchmarks compare the proved calls with these, and their answers with each other.

#[derive(Clone, Copy, Default)]
pub struct Action {
    pub duration: u8,
    pub needs: u64,
    pub adds: u64,
    pub deletes: u64,
    pub pools: [u32; 4],
    pub stores: [u32; 4],
}

/// Which entries the contents of a job's file have: four, five with the handovers, or six with these and the shortest
/// lengths.
#[derive(Clone, Copy, PartialEq, Eq)]
pub enum Form {
    Four,
    Five,
    Six,
}

impl Form {
    pub fn entries(self) -> usize {
        match self {
            Form::Four => 4,
            Form::Five => 5,
            Form::Six => 6,
        }
    }
}

/// The rule that a job's stores go by: a step uses its amount once, or once for each started hour, with a reserve kept
/// back.
#[derive(Clone, Copy, PartialEq, Eq)]
pub enum Rule {
    Once,
    Hourly,
}

impl Rule {
    pub const BOTH: [Rule; 2] = [Rule::Once, Rule::Hourly];

    /// The bytes of the head of a job's file, which tell the rule.
    pub fn head(self) -> usize {
        match self {
            Rule::Once => 19,
            Rule::Hourly => 20,
        }
    }
}

pub struct Job {
    pub form: Form,
    pub rule: Rule,
    pub reserve: u8, // percent, under the hourly rule
    pub facts: u8,
    pub deadline: u16,
    pub start: u64,
    pub goal: u64,
    pub pools: usize,
    pub stores: usize,
    pub pool: [u32; 4],
    pub store: [u32; 4],
    pub actions: Vec<Action>,
    pub handovers: [u8; 4], // of a file with five entries or six
    pub shortest: [u8; 64], // of a file with six
}

impl Job {
    /// How many minutes a share of a pool stays in use after its step.
    pub fn handover(&self, pool: usize) -> u32 {
        if self.form == Form::Four { 0 } else { self.handovers[pool] as u32 }
    }

    /// How many minutes a step of an action takes at least; its duration is the longest length.
    pub fn shortest_length(&self, action: usize) -> u8 {
        if self.form == Form::Six { self.shortest[action] } else { self.actions[action].duration }
    }

    /// How much of a store a step of an action uses up.
    pub fn charged(&self, action: &Action, store: usize) -> u32 {
        match self.rule {
            Rule::Once => action.stores[store],
            Rule::Hourly => action.stores[store] * action.duration.div_ceil(60) as u32,
        }
    }

    /// How much of a store a plan may use up.
    pub fn allowed(&self, store: usize) -> u32 {
        match self.rule {
            Rule::Once => self.store[store],
            Rule::Hourly => self.store[store] * (100 - self.reserve as u32) / 100,
        }
    }
}

fn u16_at(b: &[u8], at: usize) -> usize {
    u16::from_le_bytes([b[at], b[at + 1]]) as usize
}

fn u32_at(b: &[u8], at: usize) -> u32 {
    u32::from_le_bytes(b[at..at + 4].try_into().unwrap())
}

fn u64_at(b: &[u8], at: usize) -> u64 {
    u64::from_le_bytes(b[at..at + 8].try_into().unwrap())
}

fn amounts(b: &[u8]) -> [u32; 4] {
    let mut out = [0; 4];
    for (k, x) in b.chunks_exact(4).enumerate() {
        out[k] = u32_at(x, 0);
    }
    out
}

pub fn foreign(facts: u8, set: u64) -> bool {
    facts < 64 && set >> facts != 0
}

/// The form of a file: first offset 20 means five entries, 24 six, anything else four.
pub fn form_of(b: &[u8]) -> Form {
    match b {
        [20, 0, ..] => Form::Five,
        [24, 0, ..] => Form::Six,
        _ => Form::Four,
    }
}

pub fn read(b: &[u8]) -> Result<Job, u64> {
    let form = form_of(b);
    let contents = 4 * form.entries();
    if b.len() < contents || b.len() > 4096 {
        return Err(1);
    }
    let mut at = contents;
    let mut size = [0; 6];
    for k in 0..form.entries() {
        if u16_at(b, 4 * k) != at {
            return Err(2);
        }
        size[k] = u16_at(b, 4 * k + 2);
        at += size[k];
    }
    if at != b.len() {
        return Err(2);
    }
    let (pools, stores) = (size[1] / 4, size[2] / 4);
    let one = 25 + 4 * pools + 4 * stores;
    let Some(&rule) = Rule::BOTH.iter().find(|rule| rule.head() == size[0]) else {
        return Err(3);
    };
    if size[1] % 4 != 0 || size[1] > 16 || size[2] % 4 != 0 || size[2] > 16 {
        return Err(3);
    }
    if size[3] % one != 0 || size[3] / one > 64 {
        return Err(3);
    }
    if form != Form::Four && size[4] != pools || form == Form::Six && size[5] != size[3] / one {
        return Err(3);
    }
    let pool_at = contents + size[0];
    let head = &b[contents..pool_at];
    let store_at = pool_at + size[1];
    let action_at = store_at + size[2];
    let handover_at = action_at + size[3];
    let shortest_at = handover_at + size[4];
    let (mut handovers, mut shortest) = ([0; 4], [0; 64]);
    handovers[..size[4]].copy_from_slice(&b[handover_at..shortest_at]);
    shortest[..size[5]].copy_from_slice(&b[shortest_at..]);
    let job = Job {
        form,
        rule,
        reserve: if rule == Rule::Hourly { head[19] } else { 0 },
        facts: head[0],
        deadline: u16_at(head, 1) as u16,
        start: u64_at(head, 3),
        goal: u64_at(head, 11),
        pools,
        stores,
        pool: amounts(&b[pool_at..store_at]),
        store: amounts(&b[store_at..action_at]),
        actions: b[action_at..handover_at]
            .chunks_exact(one)
            .map(|x| Action {
                duration: x[0],
                needs: u64_at(x, 1),
                adds: u64_at(x, 9),
                deletes: u64_at(x, 17),
                pools: amounts(&x[25..25 + 4 * pools]),
                stores: amounts(&x[25 + 4 * pools..]),
            })
            .collect(),
        handovers,
        shortest,
    };
    validate(&job)?;
    Ok(job)
}

fn validate(j: &Job) -> Result<(), u64> {
    if j.facts > 64 {
        return Err(4);
    }
    if j.deadline > 1440 {
        return Err(5);
    }
    if j.rule == Rule::Hourly && j.reserve > 50 {
        return Err(31);
    }
    if foreign(j.facts, j.start | j.goal) {
        return Err(6);
    }
    if j.pool.iter().chain(&j.store).any(|&x| x > 1_000_000) {
        return Err(7);
    }
    if (0..j.pools).any(|k| j.handover(k) > 30) {
        return Err(27);
    }
    if j.actions.iter().any(|a| a.duration == 0) {
        return Err(8);
    }
    let no_range = |(n, a): (usize, &Action)| j.shortest_length(n) == 0 || j.shortest_length(n) > a.duration;
    if j.actions.iter().enumerate().any(no_range) {
        return Err(29);
    }
    if j.actions.iter().any(|a| foreign(j.facts, a.needs | a.adds | a.deletes)) {
        return Err(9);
    }
    if j.actions.iter().any(|a| a.adds & a.deletes != 0) {
        return Err(10);
    }
    if j.actions.iter().any(|a| a.pools.iter().chain(&a.stores).any(|&x| x > 1_000_000)) {
        return Err(11);
    }
    let beyond = |a: &Action, k: usize| a.pools[k] > j.pool[k] || j.charged(a, k) > j.allowed(k);
    if j.actions.iter().any(|a| (0..4).any(|k| beyond(a, k))) {
        return Err(26);
    }
    Ok(())
}

pub fn write(j: &Job, out: &mut [u8]) -> Result<usize, u64> {
    validate(j)?;
    let one = 25 + 4 * j.pools + 4 * j.stores;
    let sizes = [j.rule.head(), 4 * j.pools, 4 * j.stores, j.actions.len() * one, j.pools, j.actions.len()];
    let entries = j.form.entries();
    let length = 4 * entries + sizes[..entries].iter().sum::<usize>();
    if out.len() < length {
        return Err(23);
    }
    let mut at = 4 * entries;
    for k in 0..entries {
        out[4 * k..4 * k + 2].copy_from_slice(&(at as u16).to_le_bytes());
        out[4 * k + 2..4 * k + 4].copy_from_slice(&(sizes[k] as u16).to_le_bytes());
        at += sizes[k];
    }
    let mut at = 4 * entries;
    out[at] = j.facts;
    out[at + 1..at + 3].copy_from_slice(&j.deadline.to_le_bytes());
    out[at + 3..at + 11].copy_from_slice(&j.start.to_le_bytes());
    out[at + 11..at + 19].copy_from_slice(&j.goal.to_le_bytes());
    at += 19;
    if j.rule == Rule::Hourly {
        out[at] = j.reserve;
        at += 1;
    }
    let amounts = |out: &mut [u8], at: &mut usize, xs: &[u32]| {
        for x in xs {
            out[*at..*at + 4].copy_from_slice(&x.to_le_bytes());
            *at += 4;
        }
    };
    amounts(out, &mut at, &j.pool[..j.pools]);
    amounts(out, &mut at, &j.store[..j.stores]);
    for a in &j.actions {
        out[at] = a.duration;
        out[at + 1..at + 9].copy_from_slice(&a.needs.to_le_bytes());
        out[at + 9..at + 17].copy_from_slice(&a.adds.to_le_bytes());
        out[at + 17..at + 25].copy_from_slice(&a.deletes.to_le_bytes());
        at += 25;
        amounts(out, &mut at, &a.pools[..j.pools]);
        amounts(out, &mut at, &a.stores[..j.stores]);
    }
    let behind = j.handovers[..j.pools].iter().chain(&j.shortest[..j.actions.len()]);
    out[at..length].iter_mut().zip(behind).for_each(|(byte, minutes)| *byte = *minutes);
    Ok(length)
}

/// The plan's end, or the refusal: minute by minute, as the document describes it.
pub fn check(j: &Job, plan: &[u8]) -> Result<u64, u64> {
    check_lasting(j, plan, |_, a| a.duration)
}

/// The same where a step, told by its place in the plan and its action, lasts so many minutes.
pub fn check_lasting(j: &Job, plan: &[u8], lasts: impl Fn(usize, &Action) -> u8) -> Result<u64, u64> {
    if plan.len() % 3 != 0 || plan.len() > 96 {
        return Err(12);
    }
    let steps: Vec<(usize, u32, u32, &Action)> = match plan
        .chunks_exact(3)
        .enumerate()
        .map(|(i, x)| {
            let n = x[0] as usize;
            let start = u16_at(x, 1) as u32;
            j.actions.get(n).map(|a| (n, start, start + lasts(i, a) as u32, a))
        })
        .collect::<Option<Vec<_>>>()
    {
        Some(s) => s,
        None => return Err(13),
    };
    if steps.windows(2).any(|w| (w[0].1, w[0].0) >= (w[1].1, w[1].0)) {
        return Err(14);
    }
    if steps.iter().any(|s| s.2 > j.deadline as u32) {
        return Err(15);
    }
    let hinders = |a: &Action, b: &Action| a.deletes & (b.needs | b.adds) != 0;
    for (i, x) in steps.iter().enumerate() {
        for y in &steps[..i] {
            if x.1 < y.2 && y.1 < x.2 && (x.0 == y.0 || hinders(x.3, y.3) || hinders(y.3, x.3)) {
                return Err(16);
            }
        }
    }
    let end = steps.iter().map(|s| s.2).max().unwrap_or(0);
    for k in 0..j.pools {
        let handover = j.handover(k);
        let in_use = |s: &&(usize, u32, u32, &Action), t: u32| s.1 <= t && t < s.2 + handover;
        for t in 0..end + handover {
            let used: u64 = steps.iter().filter(|s| in_use(s, t)).map(|s| s.3.pools[k] as u64).sum();
            if used > j.pool[k] as u64 {
                return Err(17);
            }
        }
    }
    for k in 0..j.stores {
        if steps.iter().map(|s| j.charged(s.3, k) as u64).sum::<u64>() > j.allowed(k) as u64 {
            return Err(18);
        }
    }
    let mut held = j.start;
    for t in 0..=end {
        if t > 0 {
            let ending = || steps.iter().filter(|s| s.2 == t);
            held &= !ending().fold(0, |d, s| d | s.3.deletes);
            held |= ending().fold(0, |d, s| d | s.3.adds);
        }
        if steps.iter().any(|s| s.1 == t && s.3.needs & !held != 0) {
            return Err(19);
        }
    }
    if j.goal & !held != 0 {
        return Err(20);
    }
    Ok(end as u64)
}

/// The most of each pool that is in use in any minute, 0 for a pool that the job lacks: of a plan that is accepted.
pub fn peaks(j: &Job, plan: &[u8]) -> [u32; 4] {
    peaks_lasting(j, plan, |_, a| a.duration)
}

/// The same where a step, told by its place in the plan and its action, lasts so many minutes.
pub fn peaks_lasting(j: &Job, plan: &[u8], lasts: impl Fn(usize, &Action) -> u8) -> [u32; 4] {
    let mut minutes = vec![[0; 4]; j.deadline as usize + 30];
    for (i, step) in plan.chunks_exact(3).enumerate() {
        let a = &j.actions[step[0] as usize];
        for k in 0..j.pools {
            let held = lasts(i, a) as usize + j.handover(k) as usize;
            minutes.iter_mut().skip(u16_at(step, 1)).take(held).for_each(|in_use| in_use[k] += a.pools[k]);
        }
    }
    [0, 1, 2, 3].map(|k| minutes.iter().map(|in_use| in_use[k]).max().unwrap_or(0))
}

pub const NONE: u32 = u32::MAX;

fn entry(p: usize, q: usize) -> usize {
    let (p, q) = (p.min(q), p.max(q));
    q * (q + 1) / 2 + p
}

/// The members of a set: facts, or actions by their numbers.
pub fn members(mut set: u64) -> impl Iterator<Item = usize> {
    std::iter::from_fn(move || {
        if set == 0 {
            return None;
        }
        let n = set.trailing_zeros() as usize;
        set &= set - 1;
        Some(n)
    })
}

/// The table of earliest times: entry q(q+1)/2 + p for facts p and q.
pub struct Times([u32; 2080]);

impl Times {
    /// The time of a set: the latest of the entries of its facts.
    pub fn of(&self, set: u64) -> u32 {
        let mut latest = 0;
        for q in members(set) {
            let row = entry(0, q);
            for p in members(set & (u64::MAX >> (63 - q))) {
                latest = latest.max(self.0[row + p]);
            }
        }
        latest
    }

    /// Whether the time of a set is at most the limit: no at the first entry that is later.
    pub fn by(&self, set: u64, limit: u32) -> bool {
        members(set).all(|q| {
            let row = entry(0, q);
            members(set & (u64::MAX >> (63 - q))).all(|p| self.0[row + p] <= limit)
        })
    }

    fn lower(&mut self, first: u64, second: u64, time: u32) -> bool {
        let mut changed = false;
        for p in members(first) {
            for q in members(second) {
                let at = &mut self.0[entry(p, q)];
                if time < *at {
                    *at = time;
                    changed = true;
                }
            }
        }
        changed
    }

    /// All choices with this action, as the longer one of two.
    fn by_action(&mut self, j: &Job, i: usize) -> bool {
        let a = &j.actions[i];
        let after = |b: &Action, time: u32| if time == NONE { NONE } else { time + b.duration as u32 };
        let fits = |uses: &dyn Fn(usize) -> u32| (0..j.pools).all(|k| uses(k) <= j.pool[k]);
        let hinders = |a: &Action, b: &Action| a.deletes & (b.needs | b.adds) != 0;
        if !fits(&|k| a.pools[k]) {
            return false;
        }
        let mut changed = self.lower(a.adds, a.adds, after(a, self.of(a.needs)));
        for q in 0..j.facts as usize {
            if (a.adds | a.deletes) >> q & 1 == 0 {
                changed |= self.lower(1 << q, a.adds, after(a, self.of(a.needs | 1 << q)));
            }
        }
        for (n, b) in j.actions.iter().enumerate() {
            if n == i || a.duration < b.duration || hinders(a, b) || hinders(b, a) {
                continue;
            }
            if fits(&|k| a.pools[k] + b.pools[k]) {
                let time = after(a, self.of(a.needs)).max(after(b, self.of(a.needs | b.needs)));
                changed |= self.lower(a.adds, b.adds, time);
            }
        }
        changed
    }
}

/// The earliest times of a job: sweeps over all choices, until no entry falls.
pub fn times(j: &Job) -> Times {
    let mut table = Times([NONE; 2080]);
    let mut changed = true;
    while changed {
        changed = table.lower(j.start, j.start, 0);
        for i in 0..j.actions.len() {
            changed |= table.by_action(j, i);
        }
    }
    table
}

/// The earliest time of a set, or none where it is unreachable.
pub fn earliest(j: &Job, set: u64) -> Result<Option<u32>, u64> {
    validate(j)?;
    if foreign(j.facts, set) {
        return Err(24);
    }
    let time = times(j).of(set);
    Ok(if time == NONE { None } else { Some(time) })
}
