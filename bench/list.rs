//! Leafs through the list of all the shortest days: asks for the plan at some places of each day of a folder, of the
//! proved program and of the plain version beside it, a process each, and prints a line for each day that has a plan. A
//! time is the processor time of the whole process; a process that exceeds its limit is ended from outside.
mod known;
mod median;
use known::Known;
use median::median;
use std::path::Path;
use std::process::Command;

/// The places asked for.
const PLACES: [&str; 3] = ["0", "10", "100"];

/// Below this many seconds the start of a process counts too much for a ratio of times.
const SHORT: f64 = 0.020;

/// What `list` prints where the list is not longer than the place.
const ENDED: &str = "refused 28\n";

extern "C" {
    /// Whose times, and where to write them: seconds and microseconds of the user's part, of the system's, and more.
    fn getrusage(who: i32, usage: *mut [i64; 18]) -> i32;
}

/// The processor seconds of all processes that this one has waited for.
fn spent() -> f64 {
    const CHILDREN: i32 = -1;
    let mut usage = [0; 18];
    // The array is as large as the system's record of usage.
    let status = unsafe { getrusage(CHILDREN, &mut usage) };
    assert_eq!(status, 0, "the processor time");
    (usage[0] + usage[2]) as f64 + (usage[1] + usage[3]) as f64 / 1e6
}

/// What a program printed, none where it was ended from outside; and the processor seconds.
struct Run {
    text: Option<String>,
    seconds: f64,
}

impl Run {
    fn of(command: &mut Command) -> Run {
        let before = spent();
        let output = command.output().expect("a program to run");
        let text = output.status.success().then(|| String::from_utf8_lossy(&output.stdout).into_owned());
        Run { text, seconds: spent() - before }
    }

    /// The plan at a place, by a program that is given the job file and the place.
    fn of_place(program: &str, file: &Path, place: &str) -> Run {
        Run::of(Command::new(program).arg(file).arg(place))
    }

    /// The day planned.
    fn of_day(file: &Path) -> Run {
        let job = std::fs::File::open(file).expect("a job file");
        Run::of(Command::new("target/bin/day").stdin(job))
    }

    /// What is printed of it: the seconds, with a star where the list has ended; - where there is no answer.
    fn cell(&self) -> String {
        match &self.text {
            None => "-".to_string(),
            Some(text) => format!("{:.3}{}", self.seconds, if text == ENDED { "*" } else { "" }),
        }
    }

    fn answered(&self) -> bool {
        self.text.is_some()
    }
}

/// The second word of what a program printed first: an end, or a refusal; - for nothing.
fn end(run: &Run) -> String {
    let text = run.text.as_deref().unwrap_or_default();
    text.split_whitespace().nth(1).unwrap_or("-").to_string()
}

/// A day: its planning, and for each place the answers of the proved program and of the plain one.
struct Day {
    plan: Run,
    pages: Vec<[Run; 2]>,
}

impl Day {
    /// None where there is no plan.
    fn of(file: &Path) -> Option<Day> {
        let plan = Run::of_day(file);
        if end(&plan) == "22" {
            return None;
        }
        let ask = |place: &&str| ["target/bin/list", "target/lists"].map(|program| Run::of_place(program, file, place));
        Some(Day { plan, pages: PLACES.iter().map(ask).collect() })
    }

    /// What is wrong with the answers, if anything: the two differ, or a listed plan does not end as the day planned.
    fn mark(&self) -> String {
        for (place, [proved, plain]) in PLACES.iter().zip(&self.pages) {
            if proved.answered() && plain.answered() && proved.text != plain.text {
                return format!(" place {place} differs");
            }
            let other = proved.answered() && proved.text.as_deref() != Some(ENDED) && end(proved) != end(&self.plan);
            if other && self.plan.answered() {
                return format!(" place {place} ends at {}", end(proved));
            }
        }
        String::new()
    }

    fn print(&self, name: &str, mark: &str) {
        let cells = self.pages.iter().flatten().map(|run| format!("\t{}", run.cell()));
        println!("{name}\t{}{mark}\t{}{}", end(&self.plan), self.plan.cell(), cells.collect::<String>());
    }
}

/// The ratio of two runs' times, where both ended and neither time is short.
fn ratio(run: &Run, other: &Run) -> Option<f64> {
    let comparable = run.answered() && other.answered() && SHORT < run.seconds.min(other.seconds);
    comparable.then(|| run.seconds / other.seconds)
}

fn summary(days: &[Day]) {
    for (k, place) in PLACES.iter().enumerate() {
        let answered = |program: usize| days.iter().filter(|day| day.pages[k][program].answered()).count();
        let [proved, plain] = [answered(0), answered(1)];
        println!("place {place}: answered on {proved} of {} days, by the plain version on {plain}", days.len());
    }
    let first: Vec<_> = days.iter().filter(|day| day.pages[0][0].answered()).collect();
    let times = first.iter().map(|day| day.pages[0][0].seconds / day.plan.seconds.max(0.001));
    println!("median of place 0 to planning over {} days: {:.2}", first.len(), median(times.collect()));
    let ratios: Vec<_> = days.iter().flat_map(|day| &day.pages).flat_map(|[a, b]| ratio(a, b)).collect();
    println!("median of proved to plain over {} answers: {:.2}", ratios.len(), median(ratios));
}

fn main() {
    let folder = std::env::args().nth(1).expect("a folder of job files");
    let known = Known::of(&folder);
    println!("day\tend\tplanning\tplace {}\tplain\tplace {}\tplain\tplace {}\tplain", PLACES[0], PLACES[1], PLACES[2]);
    let (mut days, mut wrong) = (Vec::new(), 0);
    for path in known::job_files(&folder) {
        let name = known::day(&path);
        let Some(day) = Day::of(&path) else { continue };
        let mark = [day.mark(), known.mark(&name, &end(&day.plan))].concat();
        day.print(&name, &mark);
        wrong += !mark.is_empty() as usize;
        days.push(day);
    }
    summary(&days);
    println!("{wrong} wrong");
}
