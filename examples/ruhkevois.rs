//! The calls for Rust: safe functions over the exported ones, with answers taken apart.
//! Copy this file into your program.

/// The calls as the library has them.
pub mod exported {
    extern "C" {
        pub fn ruhkevois_read(file: *const u8, length: usize) -> u64;
        pub fn ruhkevois_rewrite(file: *const u8, length: usize, out: *mut u8, room: usize) -> u64;
        pub fn ruhkevois_check(file: *const u8, length: usize, plan: *const u8, bytes: usize, peaks: *mut u32) -> u64;
        pub fn ruhkevois_price(
            file: *const u8,
            length: usize,
            plan: *const u8,
            bytes: usize,
            pool_rates: *const u32,
            store_rates: *const u32,
            evening: u32,
        ) -> u64;
        pub fn ruhkevois_earliest(file: *const u8, length: usize, set: u64) -> u64;
        pub fn ruhkevois_plan(file: *const u8, length: usize, out: *mut u8, room: usize, peaks: *mut u32) -> u64;
        pub fn ruhkevois_list(
            file: *const u8,
            length: usize,
            place: u32,
            out: *mut u8,
            room: usize,
            peaks: *mut u32,
        ) -> u64;
        pub fn ruhkevois_replan(
            file: *const u8,
            length: usize,
            plan: *const u8,
            bytes: usize,
            minute: u32,
            goal: u64,
            out: *mut u8,
            room: usize,
            peaks: *mut u32,
        ) -> u64;
        pub fn ruhkevois_true_day(
            file: *const u8,
            length: usize,
            plan: *const u8,
            bytes: usize,
            lengths: *const u8,
            count: usize,
            peaks: *mut u32,
        ) -> u64;
        pub fn ruhkevois_join(
            file: *const u8,
            length: usize,
            first: *const u8,
            first_bytes: usize,
            second: *const u8,
            second_bytes: usize,
            out: *mut u8,
            room: usize,
            peaks: *mut u32,
        ) -> u64;
        pub fn ruhkevois_halves(
            file: *const u8,
            length: usize,
            halfway: u64,
            out: *mut u8,
            room: usize,
            peaks: *mut u32,
        ) -> u64;
        pub fn ruhkevois_pool(
            first: *const u8,
            length: usize,
            second: *const u8,
            other_length: usize,
            out: *mut u8,
            room: usize,
        ) -> u64;
    }
}

/// The most pools of a job.
pub const POOLS: usize = 4;

/// An answer, taken apart.
#[derive(Clone, Copy, Debug, PartialEq, Eq)]
pub enum Answer {
    /// A plan's or a true day's end, an earliest time or a file's length; the number of steps of a plan that was
    /// written or of a true day, else 0; for each pool the most that either or a checked plan uses together, else 0.
    Done { end: u32, steps: u16, peaks: [u32; POOLS] },
    /// A refusal by its number, 1 to 35.
    Refused(u8),
    /// A set of facts that no plan ever has together.
    Unreachable,
}

/// What a loan desk quotes by: cents for a unit and a started quarter hour of each pool, and for a unit of each store,
/// at most 100,000; the evening's percentage, at most 100. Rates beyond the job's pools and stores are ignored.
#[derive(Clone, Copy, Debug, Default, PartialEq, Eq)]
pub struct Rates {
    pub pools: [u32; POOLS],
    pub stores: [u32; 4],
    pub evening: u32,
}

/// What a plan costs.
#[derive(Clone, Copy, Debug, PartialEq, Eq)]
pub enum Price {
    Cents(u64),
    /// A refusal by its number, 1 to 27, 29 or 31.
    Refused(u8),
}

fn unpack(answer: u64, peaks: [u32; POOLS]) -> Answer {
    match answer as u8 {
        0 => Answer::Done { end: (answer >> 16) as u32, steps: (answer >> 48) as u16, peaks },
        1 => Answer::Refused((answer >> 8) as u8),
        _ => Answer::Unreachable,
    }
}

/// Whether a job file is accepted.
pub fn read(file: &[u8]) -> Answer {
    // SAFETY: the pointer and the length are those of a slice that lives until the call returns; so in each call below,
    // where the peaks are an array of four numbers that lives as long.
    unpack(unsafe { exported::ruhkevois_read(file.as_ptr(), file.len()) }, [0; POOLS])
}

/// Reads a job file and writes its job again, at the front of `out`.
pub fn rewrite(file: &[u8], out: &mut [u8]) -> Answer {
    unpack(unsafe { exported::ruhkevois_rewrite(file.as_ptr(), file.len(), out.as_mut_ptr(), out.len()) }, [0; POOLS])
}

/// Whether a plan is accepted for the job of a file.
pub fn check(file: &[u8], plan: &[u8]) -> Answer {
    let mut peaks = [0; POOLS];
    let lent = peaks.as_mut_ptr();
    let answer = unsafe { exported::ruhkevois_check(file.as_ptr(), file.len(), plan.as_ptr(), plan.len(), lent) };
    unpack(answer, peaks)
}

/// What a plan for the job of a file costs at these rates.
pub fn price(file: &[u8], plan: &[u8], rates: &Rates) -> Price {
    let (pools, stores) = (rates.pools.as_ptr(), rates.stores.as_ptr());
    let (file, length, plan, bytes) = (file.as_ptr(), file.len(), plan.as_ptr(), plan.len());
    let answer = unsafe { exported::ruhkevois_price(file, length, plan, bytes, pools, stores, rates.evening) };
    if answer as u8 == 0 { Price::Cents(answer >> 8) } else { Price::Refused((answer >> 8) as u8) }
}

/// The earliest time of a set of facts in the job of a file.
pub fn earliest(file: &[u8], set: u64) -> Answer {
    unpack(unsafe { exported::ruhkevois_earliest(file.as_ptr(), file.len(), set) }, [0; POOLS])
}

/// Writes a shortest plan for the job of a file to the front of `out`, which has room for 96 bytes.
pub fn plan(file: &[u8], out: &mut [u8]) -> Answer {
    let mut peaks = [0; POOLS];
    let lent = peaks.as_mut_ptr();
    let answer = unsafe { exported::ruhkevois_plan(file.as_ptr(), file.len(), out.as_mut_ptr(), out.len(), lent) };
    unpack(answer, peaks)
}

/// Writes the plan at a place, counted from 0, of the list of all shortest plans for the job of a file to the front of
/// `out`, which has room for 96 bytes. Behind the last plan it is refused by 28.
pub fn list(file: &[u8], place: u32, out: &mut [u8]) -> Answer {
    let mut peaks = [0; POOLS];
    let lent = peaks.as_mut_ptr();
    let (file, length, out, room) = (file.as_ptr(), file.len(), out.as_mut_ptr(), out.len());
    let answer = unsafe { exported::ruhkevois_list(file, length, place, out, room, lent) };
    unpack(answer, peaks)
}

/// Writes a shortest plan for a new goal to the front of `out`, which has room for 96 bytes: it keeps the steps of the
/// current plan that start before the minute, and its others start at the minute or later.
pub fn replan(file: &[u8], current: &[u8], minute: u32, goal: u64, out: &mut [u8]) -> Answer {
    let mut peaks = [0; POOLS];
    let lent = peaks.as_mut_ptr();
    let (file, length, plan, bytes) = (file.as_ptr(), file.len(), current.as_ptr(), current.len());
    let (out, room) = (out.as_mut_ptr(), out.len());
    let answer = unsafe { exported::ruhkevois_replan(file, length, plan, bytes, minute, goal, out, room, lent) };
    unpack(answer, peaks)
}

/// How the day of a plan for the job of a file went, where its steps took these lengths, a byte for each step.
pub fn true_day(file: &[u8], plan: &[u8], lengths: &[u8]) -> Answer {
    let mut peaks = [0; POOLS];
    let lent = peaks.as_mut_ptr();
    let (file, length, plan, bytes) = (file.as_ptr(), file.len(), plan.as_ptr(), plan.len());
    let (lengths, count) = (lengths.as_ptr(), lengths.len());
    let answer = unsafe { exported::ruhkevois_true_day(file, length, plan, bytes, lengths, count, lent) };
    unpack(answer, peaks)
}

/// Joins two plans for the job of a file and writes the joined plan to the front of `out`, which has room for 96 bytes.
/// It may break 16 to 20, as both plans may: `check` tells.
pub fn join(file: &[u8], first: &[u8], second: &[u8], out: &mut [u8]) -> Answer {
    let mut peaks = [0; POOLS];
    let lent = peaks.as_mut_ptr();
    let (file, length, a, b) = (file.as_ptr(), file.len(), first.as_ptr(), second.as_ptr());
    let (out, room) = (out.as_mut_ptr(), out.len());
    let answer =
        unsafe { exported::ruhkevois_join(file, length, a, first.len(), b, second.len(), out, room, lent) };
    unpack(answer, peaks)
}

/// Plans the day of a file in two halves, the first for the halfway set, the second for the goal from what the first
/// leaves, and writes the joined plan to the front of `out`, which has room for 96 bytes.
pub fn halves(file: &[u8], halfway: u64, out: &mut [u8]) -> Answer {
    let mut peaks = [0; POOLS];
    let lent = peaks.as_mut_ptr();
    let (file, length, out, room) = (file.as_ptr(), file.len(), out.as_mut_ptr(), out.len());
    let answer = unsafe { exported::ruhkevois_halves(file, length, halfway, out, room, lent) };
    unpack(answer, peaks)
}

/// Pools the jobs of two files to one and writes its file to the front of `out`, where 4,096 bytes are room enough.
pub fn pool(first: &[u8], second: &[u8], out: &mut [u8]) -> Answer {
    let (first, length, second, other_length) = (first.as_ptr(), first.len(), second.as_ptr(), second.len());
    let (out, room) = (out.as_mut_ptr(), out.len());
    unpack(unsafe { exported::ruhkevois_pool(first, length, second, other_length, out, room) }, [0; POOLS])
}
