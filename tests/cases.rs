//! Random jobs, files and plans, each made from its seed.
use crate::plain::{self, Action, Form, Job, Rule};
use crate::plain_price::Rates;

/// A generator of numbers, the same for the same seed.
pub struct Random(u64);

impl Random {
    pub fn new(seed: u64) -> Random {
        Random(seed)
    }

    pub fn next(&mut self) -> u64 {
        self.0 = self.0.wrapping_add(0x9e37_79b9_7f4a_7c15);
        let x = (self.0 ^ self.0 >> 30).wrapping_mul(0xbf58_476d_1ce4_e5b9);
        let x = (x ^ x >> 27).wrapping_mul(0x94d0_49bb_1331_11eb);
        x ^ x >> 31
    }

    pub fn below(&mut self, n: u64) -> u64 {
        self.next() % n
    }

    pub fn one_in(&mut self, n: u64) -> bool {
        self.below(n) == 0
    }

    /// A set of some facts below this number, of so many at most.
    pub fn set(&mut self, facts: u64, most: u64) -> u64 {
        let count = if facts == 0 { 0 } else { self.below(most + 1) };
        (0..count).fold(0, |set, _| set | 1 << self.below(facts))
    }

    pub fn bytes(&mut self, n: usize) -> Vec<u8> {
        (0..n).map(|_| self.next() as u8).collect()
    }

    fn amounts(&mut self, n: usize, below: u64) -> [u32; 4] {
        let mut out = [0; 4];
        out[..n].fill_with(|| self.below(below) as u32);
        out
    }
}

/// How large a job may be, how many facts its sets have at most, and how much its pools have.
pub struct Size {
    facts: u64,
    actions: u64,
    deadline: u64,
    duration: u64,
    set: u64,
    pool: u64,
    store: u64,
}

/// A job that the simple planner plans, too.
pub const SMALL: Size = Size { facts: 7, actions: 6, deadline: 12, duration: 3, set: 2, pool: 8, store: 16 };

/// A job of any size with small sets, in which long plans are accepted.
pub const ROOMY: Size = Size { facts: 64, actions: 64, deadline: 1440, duration: 121, set: 3, pool: 40, store: 100 };

/// A job of any size with any sets.
pub const LARGE: Size = Size { facts: 64, actions: 64, deadline: 1440, duration: 255, set: 40, pool: 9, store: 40 };

/// A length up to this one: if that is over an hour, often about a whole number of hours.
fn length(r: &mut Random, most: u64) -> u8 {
    if most > 60 && r.one_in(2) {
        return about_hours(r, most / 60);
    }
    1 + r.below(most) as u8
}

/// A length of so many hours at most, or a minute less or more.
fn about_hours(r: &mut Random, most: u64) -> u8 {
    (59 + 60 * r.below(most) + r.below(3)) as u8
}

fn action(r: &mut Random, job: &Job, size: &Size) -> Action {
    let facts = job.facts as u64;
    let adds = if facts == 0 { 0 } else { 1 << r.below(facts) } | r.set(facts, size.set / 2);
    Action {
        duration: length(r, size.duration),
        needs: r.set(facts, size.set),
        adds,
        deletes: r.set(facts, size.set / 2) & !adds,
        pools: r.amounts(job.pools, 3),
        stores: r.amounts(job.stores, 3),
    }
}

/// Handovers of up to 3 minutes or up to 30, now and then none; of a file with five entries or six.
fn handovers(r: &mut Random, job: &mut Job) {
    let most = [0, 3, 3, 3, 3, 30][r.below(6) as usize];
    job.handovers[..job.pools].fill_with(|| r.below(most + 1) as u8);
}

/// A shortest length for each action: the longest, 1, or anything between; of a file with six entries.
fn shortest_lengths(r: &mut Random, job: &mut Job) {
    for (shortest, action) in job.shortest.iter_mut().zip(&job.actions) {
        let longest = action.duration;
        *shortest = [longest, 1, 1 + r.below(longest as u64) as u8][r.below(3) as usize];
    }
}

pub fn job(r: &mut Random, size: &Size) -> Job {
    let facts = if r.one_in(20) { 0 } else { 1 + r.below(size.facts) };
    let (pools, stores) = (r.below(5) as usize, r.below(5) as usize);
    let least = if r.one_in(4) { 0 } else { size.deadline * 3 / 4 };
    let deadline = least + r.below(size.deadline - least + 1);
    let mut job = Job {
        form: [Form::Four, Form::Five, Form::Six][r.below(3) as usize],
        rule: Rule::BOTH[r.below(2) as usize],
        reserve: [0, 50, r.below(51) as u8][r.below(3) as usize],
        facts: facts as u8,
        deadline: deadline as u16,
        start: r.set(facts, size.set),
        goal: r.set(facts, 1) | r.set(facts, size.set),
        pools,
        stores,
        pool: r.amounts(pools, size.pool),
        store: r.amounts(stores, size.store),
        actions: Vec::new(),
        handovers: [0; 4],
        shortest: [1; 64],
    };
    handovers(r, &mut job);
    let count = if r.one_in(20) { 0 } else { 1 + r.below(size.actions) };
    job.actions = (0..count).map(|_| action(r, &job, size)).collect();
    shortest_lengths(r, &mut job);
    if !r.one_in(8) {
        within_available(&mut job);
    }
    if r.one_in(2) {
        scarce_pools(r, &mut job);
    }
    if r.one_in(4) {
        scarce_stores(r, &mut job);
    }
    job
}

/// Each pool has as much as an action uses at most, or one more, so that steps must wait for each other's shares.
fn scarce_pools(r: &mut Random, job: &mut Job) {
    for k in 0..job.pools {
        let most = job.actions.iter().map(|a| a.pools[k]).max().unwrap_or(0);
        job.pool[k] = most + r.below(2) as u32;
    }
}

/// Each store allows as much as one to three steps use up at most, or now and then one less.
fn scarce_stores(r: &mut Random, job: &mut Job) {
    for k in 0..job.stores {
        let most = job.actions.iter().map(|a| job.charged(a, k)).max().unwrap_or(0);
        let wanted = most * (1 + r.below(3) as u32);
        job.store[k] = wanted;
        while job.allowed(k) < wanted {
            job.store[k] += 1;
        }
        if r.one_in(8) {
            job.store[k] = job.store[k].saturating_sub(1);
        }
    }
}

/// A small job with an action for each fact, most of which are wanted, and scarce pools: which step waits for whose
/// share decides when the day ends.
pub fn errands(r: &mut Random) -> Job {
    let mut job = job(r, &SMALL);
    job.facts = 2 + r.below(4) as u8;
    let facts = job.facts as u64;
    (job.start, job.goal, job.actions) = (0, (1 << facts) - 1, Vec::new());
    for n in 0..facts {
        let rarely = |r: &mut Random| if r.one_in(4) { 1 << r.below(facts) & !(1 << n) } else { 0 };
        let (needs, deletes) = (rarely(r), if r.one_in(3) { rarely(r) } else { 0 });
        let (pools, stores) = (r.amounts(job.pools, 3), r.amounts(job.stores, 2));
        job.actions.push(Action { duration: 1 + r.below(3) as u8, needs, adds: 1 << n, deletes, pools, stores });
    }
    shortest_lengths(r, &mut job);
    if r.one_in(4) {
        job.goal &= r.next();
    }
    within_available(&mut job);
    scarce_pools(r, &mut job);
    if r.one_in(4) {
        scarce_stores(r, &mut job);
    }
    job
}

/// A day of two to six hours under the hourly rule, and two facts with two ways to each, of one to three hours: which
/// of them the stores allow decides when it ends.
pub fn hours(r: &mut Random) -> Job {
    let mut job = job(r, &SMALL);
    (job.rule, job.facts, job.start, job.goal) = (Rule::Hourly, 2, 0, 3);
    (job.deadline, job.actions) = (120 + r.below(240) as u16, Vec::new());
    for n in 0..4 {
        let (pools, stores) = (r.amounts(job.pools, 2), r.amounts(job.stores, 3));
        let needs = if n > 1 && r.one_in(4) { 1 } else { 0 };
        job.actions.push(Action { duration: about_hours(r, 3), needs, adds: 1 << (n / 2), deletes: 0, pools, stores });
    }
    shortest_lengths(r, &mut job);
    within_available(&mut job);
    scarce_pools(r, &mut job);
    scarce_stores(r, &mut job);
    job
}

/// A small day of trips: moves between two places, of which one holds at the start and perhaps at the end, and works
/// that may need a place or another's fact, with more than one way to some of them.
pub fn trips(r: &mut Random) -> Job {
    let mut job = job(r, &SMALL);
    let works = 1 + r.below(2);
    job.facts = 2 + works as u8;
    (job.start, job.goal, job.actions) = (1, ((1 << works) - 1) << 2 | r.below(2), Vec::new());
    for n in 0..2 + works + r.below(3) {
        let (pools, stores) = (r.amounts(job.pools, 2), r.amounts(job.stores, 2));
        let (needs, adds, deletes, longest) = match n {
            0 | 1 => (1 << n, 2 >> n, 1 << n, 2),
            _ => (if r.one_in(2) { 1 << r.below(2 + works) } else { 0 }, 4 << (n % works), 0, 4),
        };
        let duration = 1 + r.below(longest) as u8;
        job.actions.push(Action { duration, needs: needs & !adds, adds, deletes, pools, stores });
    }
    shortest_lengths(r, &mut job);
    within_available(&mut job);
    job
}

/// No action uses more of a pool or store than there is, so that the job is not refused by 26.
pub fn within_available(job: &mut Job) {
    for n in 0..job.actions.len() {
        let unit = Action { stores: [1; 4], ..job.actions[n] };
        for k in 0..4 {
            let most = job.allowed(k) / job.charged(&unit, k);
            job.actions[n].pools[k] = job.actions[n].pools[k].min(job.pool[k]);
            job.actions[n].stores[k] = job.actions[n].stores[k].min(most);
        }
    }
}

/// The file of a job, within the limits or not.
pub fn file(job: &Job) -> Vec<u8> {
    let amounts = |xs: &[u32]| xs.iter().flat_map(|x| x.to_le_bytes()).collect::<Vec<u8>>();
    let mut head = vec![job.facts];
    head.extend(job.deadline.to_le_bytes());
    head.extend(job.start.to_le_bytes());
    head.extend(job.goal.to_le_bytes());
    head.push(job.reserve);
    head.truncate(job.rule.head());
    let mut actions = Vec::new();
    for a in &job.actions {
        actions.push(a.duration);
        [a.needs, a.adds, a.deletes].iter().for_each(|set| actions.extend(set.to_le_bytes()));
        actions.extend(amounts(&a.pools[..job.pools]));
        actions.extend(amounts(&a.stores[..job.stores]));
    }
    let mut bodies = vec![head, amounts(&job.pool[..job.pools]), amounts(&job.store[..job.stores]), actions];
    bodies.extend([job.handovers[..job.pools].to_vec(), job.shortest[..job.actions.len()].to_vec()]);
    bodies.truncate(job.form.entries());
    let sizes: Vec<usize> = bodies.iter().map(Vec::len).collect();
    [contents(&sizes), bodies.concat()].concat()
}

/// The lengths of a file's bodies, and all that stands behind the contents.
pub fn parts(file: &[u8]) -> (Vec<usize>, Vec<u8>) {
    let entries = plain::form_of(file).entries();
    let size = |k: usize| u16::from_le_bytes([file[4 * k + 2], file[4 * k + 3]]) as usize;
    ((0..entries).map(size).collect(), file[4 * entries..].to_vec())
}

/// The contents of a file with bodies of these lengths.
pub fn contents(sizes: &[usize]) -> Vec<u8> {
    let mut bytes = Vec::new();
    let mut at = 4 * sizes.len();
    for size in sizes {
        bytes.extend((at as u16).to_le_bytes());
        bytes.extend((*size as u16).to_le_bytes());
        at += size;
    }
    bytes
}

/// The file with a head of another length: cut, or with such bytes behind it.
pub fn with_head_of(file: &[u8], length: usize, byte: u8) -> Vec<u8> {
    let (mut sizes, bytes) = parts(file);
    let (head, rest) = bytes.split_at(sizes[0]);
    let head: Vec<u8> = head.iter().copied().chain(std::iter::repeat(byte)).take(length).collect();
    sizes[0] = length;
    [contents(&sizes), head, rest.to_vec()].concat()
}

/// A job at a limit or beyond it, for each of the refusals 4 to 11, 27, 29 and 31.
pub fn at_a_limit(r: &mut Random, mut job: Job) -> Job {
    if job.actions.is_empty() {
        job.actions.push(Action { duration: 255, ..Action::default() });
    }
    let over = [0, 1, 1 + r.below(190)][r.below(3) as usize];
    let amount = 1_000_000 + over as u32;
    let foreign = 1 << (job.facts as u64 + over).saturating_sub(1).min(63);
    let one = r.below(job.actions.len() as u64) as usize;
    let action = &mut job.actions[one];
    match r.below(11) {
        0 => job.facts = 64 + over as u8,
        1 => job.deadline = 1440 + over as u16,
        2 => *if r.one_in(2) { &mut job.start } else { &mut job.goal } |= foreign,
        3 if job.pools > 0 => job.pool[job.pools - 1] = amount,
        3 if job.stores > 0 => job.store[job.stores - 1] = amount,
        4 => *[&mut action.needs, &mut action.adds, &mut action.deletes][r.below(3) as usize] |= foreign,
        5 => (action.adds, action.deletes) = (action.adds | foreign, action.deletes | foreign),
        6 if job.pools > 0 => action.pools[job.pools - 1] = amount,
        6 if job.stores > 0 => action.stores[job.stores - 1] = amount,
        7 if job.pools > 0 => {
            job.form = [Form::Five, Form::Six][r.below(2) as usize];
            job.handovers[r.below(job.pools as u64) as usize] = 30 + over as u8;
        }
        8 => {
            job.form = Form::Six;
            job.shortest[one] = [0, action.duration.wrapping_add(over as u8)][r.below(2) as usize];
        }
        9 => (job.rule, job.reserve) = (Rule::Hourly, 50 + over as u8),
        _ => action.duration = action.duration.wrapping_add(over as u8) & 1,
    }
    job
}

/// A file with something wrong, often: cut, lengthened, or with changed bytes, in the contents or anywhere; or with the
/// first offset of any form.
pub fn damage(r: &mut Random, mut file: Vec<u8>) -> Vec<u8> {
    let contents = 4 * plain::form_of(&file).entries() as u64;
    match r.below(8) {
        0 => file.truncate(r.below(file.len() as u64 + 1) as usize),
        1 => file.extend(r.next().to_le_bytes().iter().take(1 + r.below(8) as usize)),
        2 => file.resize(4090 + r.below(12) as usize, 0),
        3 => {
            let at = r.below(contents.min(file.len() as u64)) as usize;
            file[at] = file[at].wrapping_add(r.below(9) as u8).wrapping_sub(4);
        }
        4 => file[0] = [16, 20, 24][r.below(3) as usize],
        5 => {
            file.truncate(12 + r.below(16) as usize);
            file[1] = r.one_in(4) as u8;
        }
        _ => {
            for _ in 0..1 + r.below(3) {
                let at = r.below(file.len() as u64) as usize;
                file[at] = [0, 1, 0xff, file[at] ^ 1 << r.below(8), r.next() as u8][r.below(5) as usize];
            }
        }
    }
    file
}

/// The contents say other lengths, which still fit the file: bodies that no job has. The file has as many entries as
/// before, or more or fewer; the actions get as many bytes as bodies that are lost had.
pub fn resize_bodies(r: &mut Random, file: Vec<u8>) -> Vec<u8> {
    let (mut sizes, bytes) = parts(&file);
    if r.one_in(2) {
        let entries = 4 + r.below(3) as usize;
        sizes[3] += sizes.iter().skip(entries).sum::<usize>();
        sizes.resize(entries, 0);
    }
    let (from, to) = (r.below(sizes.len() as u64) as usize, r.below(sizes.len() as u64) as usize);
    let moved = sizes[from].min(r.below(9) as usize);
    sizes[from] -= moved;
    sizes[to] += moved;
    [contents(&sizes), bytes].concat()
}

/// Any bytes, of which some begin with the offset of a form; or any few bodies behind contents that have their lengths.
pub fn any_bytes(r: &mut Random, length: usize) -> Vec<u8> {
    let mut bytes = r.bytes(length);
    match r.below(4) {
        0 if length >= 2 => bytes[..2].copy_from_slice(&[[16, 0], [20, 0], [24, 0]][r.below(3) as usize]),
        1 => {
            let sizes: Vec<usize> = (0..4 + r.below(3)).map(|_| [0, 1, 4, 19, 20][r.below(5) as usize]).collect();
            bytes.resize(sizes.iter().sum(), 0);
            bytes = [contents(&sizes), bytes].concat();
        }
        _ => {}
    }
    bytes
}

/// A file with five entries or six: bodies behind the actions with as many bytes as they should have, about as many, or
/// few.
pub fn with_bodies_behind(r: &mut Random, job: &Job) -> Vec<u8> {
    let (mut sizes, mut bytes) = parts(&file(&Job { form: Form::Four, ..copy(job) }));
    for right in [job.pools, job.actions.len()].into_iter().take(1 + r.below(2) as usize) {
        let about = (right + r.below(3) as usize).saturating_sub(1);
        let size = [right, about, r.below(7) as usize][r.below(3) as usize];
        sizes.push(size);
        bytes.extend((0..size).map(|_| r.below(32) as u8));
    }
    [contents(&sizes), bytes].concat()
}

pub fn bytes_of(steps: &[(u16, u8)]) -> Vec<u8> {
    steps.iter().flat_map(|s| [s.1, s.0 as u8, (s.0 >> 8) as u8]).collect()
}

/// Any steps, mostly in order.
pub fn any_plan(r: &mut Random, job: &Job) -> Vec<u8> {
    let actions = job.actions.len() as u64 + if r.one_in(4) { 1 } else { 0 };
    let latest = if r.one_in(20) { 65_536 } else { job.deadline as u64 + 1 };
    let mut steps: Vec<(u16, u8)> =
        (0..r.below(if actions == 0 { 2 } else { 6 }))
            .map(|_| (r.below(latest) as u16, r.below(actions.max(1)) as u8))
            .collect();
    if !r.one_in(8) {
        steps.sort();
        steps.dedup();
    }
    bytes_of(&steps)
}

/// Steps that each keep every rule as they are begun, one after the other or together; at most 32. They may miss the
/// goal, of which the second answer is the facts that hold at the end.
pub fn grown_plan(r: &mut Random, job: &Job) -> (Vec<u8>, u64) {
    let without_goal = |steps: &[(u16, u8)]| plain::check(&Job { goal: 0, ..copy(job) }, &bytes_of(steps));
    let mut steps: Vec<(u16, u8)> = Vec::new();
    for _ in 0..r.below(100) {
        if job.actions.is_empty() || steps.len() == 32 {
            break;
        }
        let last = steps.last().map_or(0, |s| s.0);
        let action = r.below(job.actions.len() as u64) as u8;
        let start = last + r.below(1 + job.actions[action as usize].duration as u64) as u16;
        steps.push((start, action));
        if without_goal(&steps).is_err() {
            steps.pop();
        }
    }
    let bytes = bytes_of(&steps);
    let held = held_at_end(job, &bytes);
    (bytes, held)
}

/// The facts that hold at the end of a plan that keeps the rules.
pub fn held_at_end(job: &Job, plan: &[u8]) -> u64 {
    let held = (0..job.facts).filter(|&n| plain::check(&Job { goal: 1 << n, ..copy(job) }, plan).is_ok());
    held.fold(0, |set, n| set | 1 << n)
}

/// Facts that some plan has together at its end: new ones, where it makes any.
pub fn reachable_goal(r: &mut Random, job: &Job) -> u64 {
    let held = (0..4).map(|_| grown_plan(r, job).1).max_by_key(|held| (held & !job.start).count_ones());
    let new = held.map_or(0, |held| held & !job.start);
    if r.one_in(2) { new } else { new & r.next() }
}

/// A plan with a step lost, doubled, moved or exchanged, or with bytes too many.
pub fn damage_plan(r: &mut Random, mut plan: Vec<u8>) -> Vec<u8> {
    if plan.is_empty() {
        return r.bytes(3);
    }
    let at = 3 * r.below(plan.len() as u64 / 3) as usize;
    match r.below(7) {
        0 => drop(plan.drain(at..at + 3)),
        1 => plan.extend_from_within(at..at + 3),
        2 => plan[at + 1] = plan[at + 1].wrapping_add(1),
        3 => plan[at + 1] = plan[at + 1].wrapping_sub(1),
        4 => plan[at] ^= 1,
        5 => plan.truncate(at + 1),
        _ => plan.resize(96 + r.below(10) as usize, 0),
    }
    plan
}

pub fn copy(job: &Job) -> Job {
    Job { actions: job.actions.clone(), ..*job }
}

/// The plan with all its steps later, so that one of them ends about minute 480, where the deadline allows it.
pub fn evening_plan(r: &mut Random, job: &Job, plan: &[u8]) -> Vec<u8> {
    let steps: Vec<(u16, u8)> = plan.chunks_exact(3).map(|x| (u16::from_le_bytes([x[1], x[2]]), x[0])).collect();
    let ends: Vec<u64> = steps.iter().map(|s| s.0 as u64 + job.actions[s.1 as usize].duration as u64).collect();
    let Some(last) = ends.iter().max() else {
        return vec![];
    };
    let wanted = (478 + r.below(6)).saturating_sub(ends[r.below(ends.len() as u64) as usize]);
    let later = wanted.min((job.deadline as u64).saturating_sub(*last)) as u16;
    bytes_of(&steps.iter().map(|s| (s.0 + later, s.1)).collect::<Vec<_>>())
}

/// A rate: small, at the limit, or beyond it.
fn rate(r: &mut Random) -> u32 {
    match r.below(40) {
        0 => 100_001 + r.below(9) as u32,
        1 => r.next() as u32,
        2 | 3 => 100_000,
        n => r.below(if n % 2 == 0 { 100_001 } else { 4 }) as u32,
    }
}

/// Rates for a job: those beyond its pools and stores are any numbers.
pub fn rates(r: &mut Random, job: &Job) -> Rates {
    let mut rates = Rates { evening: r.below(101) as u32, ..Rates::default() };
    for k in 0..4 {
        rates.pools[k] = if k < job.pools { rate(r) } else { r.next() as u32 };
        rates.stores[k] = if k < job.stores { rate(r) } else { r.next() as u32 };
    }
    if r.one_in(8) {
        rates.evening = [0, 100, 101, 256, r.next() as u32][r.below(5) as usize];
    }
    rates
}

/// The job with as large uses and amounts as there may be, so that prices are large.
pub fn dear(r: &mut Random, mut job: Job) -> Job {
    let scale = [1, 1_000, 100_000][r.below(3) as usize];
    let larger = |xs: &mut [u32; 4]| xs.iter_mut().for_each(|x| *x = (*x * scale).min(1_000_000));
    larger(&mut job.pool);
    larger(&mut job.store);
    for action in &mut job.actions {
        larger(&mut action.pools);
        larger(&mut action.stores);
    }
    job
}
