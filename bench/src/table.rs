//! Times calls that do the same work, two or three of them, and prints them side by side.
use crate::places;
use std::mem::swap;
use std::time::Instant;

/// A side of a row: what it does so many rounds of, and the number that it answers.
pub type Call = Box<dyn Fn(u64) -> u64>;

/// One row: what the proved library, plain Rust and, in some, intrinsics do, and how many operations that is.
pub struct Case {
    pub name: String,
    pub operations: u64,
    pub library: Call,
    /// The plain loop, or copies of it that lie at different places, or forms of it: the fastest counts.
    pub plain: Vec<Call>,
    /// The same by intrinsics, written by hand.
    pub by_hand: Option<Call>,
}

impl Case {
    /// A row whose plain loop is there once.
    pub fn new<L, P>(name: String, operations: u64, library: L, plain: P) -> Self
    where
        L: Fn(u64) -> u64 + 'static,
        P: Fn(u64) -> u64 + 'static,
    {
        Case {
            name,
            operations,
            library: Box::new(library),
            plain: vec![Box::new(plain)],
            by_hand: None,
        }
    }

    /// The row with one more side, if there is such.
    pub fn beside(self, by_hand: Option<Call>) -> Self {
        Case { by_hand, ..self }
    }
}

/// The rows with the plain loops of both lists of them; the rest is that of the first ones.
pub fn with_plain_of(cases: Vec<Case>, others: Vec<Case>) -> Vec<Case> {
    let pairs = cases.into_iter().zip(others);
    let joined = pairs.map(|(case, other)| {
        assert_eq!(case.name, other.name);
        Case { plain: case.plain.into_iter().chain(other.plain).collect(), ..case }
    });
    joined.collect()
}

const RUNS: usize = 75;
const NANOSECONDS_A_RUN: u64 = 3_000_000;

/// How many runs there are at least, however long they take, and what they may take where there are more.
const FEWEST_RUNS: usize = 9;
const NANOSECONDS_A_ROW: f64 = 1.5e9;

/// How often the time of plain Rust, and of what is written by hand, the library should take at most.
const MOST_OF_PLAIN: f64 = 1.05;
const MOST_OF_BY_HAND: f64 = 1.25;

/// How many times more a row is timed whose library took longer than that.
const TIMES_AGAIN: usize = 3;

/// How long a side runs, one call after another, before the time of its last call counts. A first call's time has
/// what the processor takes to fill its caches, and to bring wide vectors into use.
const NANOSECONDS_BEFORE: u128 = 1_000_000;

/// Nanoseconds that the call takes, and its answer.
fn time(call: &Call, rounds: u64) -> (f64, u64) {
    let before = Instant::now();
    loop {
        let start = Instant::now();
        let answer = call(std::hint::black_box(rounds));
        let taken = start.elapsed();
        if before.elapsed().as_nanos() >= NANOSECONDS_BEFORE {
            return (taken.as_nanos() as f64, answer);
        }
    }
}

/// Rounds that take some milliseconds, by the best of three runs, and how many runs of them there are.
fn rounds_and_runs(case: &Case) -> (u64, usize) {
    let mut rounds = 1;
    loop {
        let runs = (0..3).map(|_| time(&case.plain[0], rounds).0);
        let taken = runs.fold(f64::INFINITY, f64::min);
        if taken > NANOSECONDS_A_RUN as f64 / 2.0 || rounds > 1 << 40 {
            let runs = (NANOSECONDS_A_ROW / taken) as usize;
            return (rounds, runs.clamp(FEWEST_RUNS, RUNS));
        }
        rounds *= 2;
    }
}

/// The time in the middle; the times are sorted then.
fn median(times: &mut [f64]) -> f64 {
    times.sort_by(f64::total_cmp);
    times[times.len() / 2]
}

/// A side of a row while it is timed: its times at a place, and the least of the places' best times and
/// medians, as far as they were taken. A side without a call takes none.
struct Side<'a> {
    call: Option<&'a Call>,
    times: [f64; RUNS],
    best: f64,
    median: f64,
}

impl<'a> Side<'a> {
    /// Before any time was taken.
    fn of(call: Option<&'a Call>) -> Self {
        Side {
            call,
            times: [f64::INFINITY; RUNS],
            best: f64::INFINITY,
            median: f64::INFINITY,
        }
    }

    /// Times a run; its answer.
    fn run(&mut self, run: usize, rounds: u64) -> Option<u64> {
        let (taken, answer) = time(self.call?, rounds);
        self.times[run] = taken;
        Some(answer)
    }

    /// Takes the times of so many runs at one more place, each of so many operations.
    fn take(&mut self, runs: usize, operations: f64) {
        let middle = median(&mut self.times[..runs]);
        self.best = self.best.min(self.times[0] / operations);
        self.median = self.median.min(middle / operations);
    }

    /// Takes the least times of both.
    fn join(&mut self, other: &Side) {
        self.best = self.best.min(other.best);
        self.median = self.median.min(other.median);
    }
}

/// What was found of a row: its three sides, the ratios of the runs of the first two next to each other at the
/// place where plain Rust was fastest, and whether all answers were the same.
struct Row<'a> {
    library: Side<'a>,
    plain: Side<'a>,
    by_hand: Side<'a>,
    ratios: Vec<f64>,
    agree: bool,
}

/// Whether the library is linked; its calls lead nowhere otherwise.
pub const LIBRARY: bool = cfg!(library);

/// Runs all sides in turn, at each place of the plain loop.
fn timed(case: &Case) -> Row<'_> {
    let (rounds, runs) = rounds_and_runs(case);
    let operations = (rounds * case.operations) as f64;
    let mut row = Row {
        library: Side::of(LIBRARY.then_some(&case.library)),
        plain: Side::of(None),
        by_hand: Side::of(case.by_hand.as_ref()),
        ratios: Vec::with_capacity(runs),
        agree: true,
    };
    // no memory is asked for between the runs, so that lists lie at the same addresses in all of them
    let mut ratios = Vec::with_capacity(runs);
    for (place, copy) in case.plain.iter().enumerate() {
        let held = places::held_blocks(place);
        row.plain.call = Some(copy);
        ratios.clear();
        let best_before = row.plain.best;
        for run in 0..runs {
            let proved = row.library.run(run, rounds);
            let wanted = row.plain.run(run, rounds);
            let written = row.by_hand.run(run, rounds);
            ratios.push(row.library.times[run] / row.plain.times[run]);
            row.agree &= [proved, written].into_iter().flatten().all(|answer| Some(answer) == wanted);
        }
        drop(held);
        for side in [&mut row.library, &mut row.plain, &mut row.by_hand] {
            side.take(runs, operations);
        }
        if row.plain.best < best_before {
            swap(&mut row.ratios, &mut ratios);
        }
    }
    row
}

impl Row<'_> {
    /// Whether the library took more than it should.
    fn is_above_a_limit(&self) -> bool {
        let above = |side: &Side, limit: f64| side.best.is_finite() && self.library.best > limit * side.best;
        above(&self.plain, MOST_OF_PLAIN) || above(&self.by_hand, MOST_OF_BY_HAND)
    }

    /// Takes what was found when the row was timed once more: the least times count.
    fn join(&mut self, again: Row) {
        self.library.join(&again.library);
        self.plain.join(&again.plain);
        self.by_hand.join(&again.by_hand);
        self.ratios.extend(again.ratios);
        self.agree &= again.agree;
    }
}

/// What was found of a row. One above a limit is timed again some times: the machine may have slowed one side down.
fn timed_until_below(case: &Case) -> Row<'_> {
    let mut row = timed(case);
    for _ in 0..TIMES_AGAIN {
        if !row.is_above_a_limit() {
            break;
        }
        row.join(timed(case));
    }
    row
}

/// The number as a cell of the table; nothing of one that was not found.
fn cell(number: f64, width: usize, decimals: usize) -> String {
    if number.is_finite() {
        format!("{number:>width$.decimals$}")
    } else {
        " ".repeat(width)
    }
}

/// Times a row and prints it: the best of the library and of plain Rust and their ratio, the median of each, both
/// of the place where they are least, the median of those ratios, and the best of what is written by hand and the
/// ratio to it. Whether all sides answer the same.
fn print_row(case: &Case) -> bool {
    let mut row = timed_until_below(case);
    println!(
        "| {:<38} | {} | {} | {} | {} | {} | {} | {} | {} |{}",
        case.name,
        cell(row.library.best, 9, 3),
        cell(row.plain.best, 9, 3),
        cell(row.library.best / row.plain.best, 5, 2),
        cell(row.library.median, 9, 3),
        cell(row.plain.median, 9, 3),
        cell(median(&mut row.ratios), 5, 2),
        cell(row.by_hand.best, 9, 3),
        cell(ratio(row.library.best, row.by_hand.best), 5, 2),
        if row.agree { "" } else { " THE VALUES DIFFER" },
    );
    row.agree
}

/// The ratio of two times; none to one that was not taken.
fn ratio(time: f64, other: f64) -> f64 {
    if other.is_finite() { time / other } else { f64::INFINITY }
}

/// Prints the rows whose names have the word, and whether all values agree.
pub fn print(cases: &[Case], word: &str) -> bool {
    println!("| nanoseconds an operation               | library   | Rust      | ratio | median    | median    | pairs | by hand   | ratio |");
    println!("|----------------------------------------|-----------|-----------|-------|-----------|-----------|-------|-----------|-------|");
    let mut agree = true;
    for case in cases.iter().filter(|case| case.name.contains(word)) {
        agree &= print_row(case);
    }
    agree
}
