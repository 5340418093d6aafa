//! Times works in turns, and prints their medians and how far the runs spread.

use std::time::Instant;

/// How often each work is timed.
#[derive(Clone, Copy)]
pub struct Runs {
    pub count: usize,
    /// A run repeats the work until it takes about so long.
    pub seconds: f64,
}

/// The runs of each side of a row.
pub const ROW: Runs = Runs { count: 51, seconds: 0.01 };

/// The head of a table of rows.
pub const HEAD: &str =
    "| Work | Library | 10 % to 90 % | Rust | 10 % to 90 % | Ratio |\n|---|---:|---:|---:|---:|---:|";

/// A work to be timed: it does so many repeats, and gives the seconds of one. The repeats are inside, so that a run is one call through
/// the pointer.
pub struct Work<'a>(Box<dyn FnMut(u32) -> f64 + 'a>);

impl<'a> Work<'a> {
    pub fn new(mut work: impl FnMut() + 'a) -> Work<'a> {
        Work(Box::new(move |repeats| {
            let start = Instant::now();
            (0..repeats).for_each(|_| work());
            start.elapsed().as_secs_f64() / f64::from(repeats)
        }))
    }

    /// How often the work fits into a run. It has been done after this.
    fn repeats(&mut self, seconds: f64) -> u32 {
        let mut repeats = 1;
        loop {
            let one = (self.0)(repeats);
            if one * f64::from(repeats) > seconds / 4.0 {
                return (seconds / one).round().max(1.0) as u32;
            }
            repeats *= 2;
        }
    }
}

/// The seconds that a work took once, of each run, in ascending order.
pub struct Times(Vec<f64>);

impl Times {
    /// The time that so many percent of the runs do not pass.
    fn percentile(&self, percent: usize) -> f64 {
        self.0[(self.0.len() - 1) * percent / 100]
    }

    pub fn median(&self) -> f64 {
        self.percentile(50)
    }
}

/// The least time of all runs.
pub fn least<'a>(times: impl IntoIterator<Item = &'a Times>) -> f64 {
    times.into_iter().map(|times| times.0[0]).fold(f64::INFINITY, f64::min)
}

/// Times works, a run of each in turn.
pub fn in_turns<const N: usize>(mut works: [Work; N], runs: Runs) -> [Times; N] {
    let repeats = works.each_mut().map(|work| work.repeats(runs.seconds));
    let mut times = [const { Vec::new() }; N];
    for _ in 0..runs.count {
        for ((work, repeats), times) in works.iter_mut().zip(repeats).zip(&mut times) {
            times.push((work.0)(repeats));
        }
    }
    times.map(|mut times| {
        times.sort_by(f64::total_cmp);
        Times(times)
    })
}

/// Times both sides and prints a row of a table. Gives the times of each.
pub fn row(name: &str, library: impl FnMut(), rust: impl FnMut()) -> [Times; 2] {
    let times = in_turns([Work::new(library), Work::new(rust)], ROW);
    print_row(name, &times);
    times
}

pub fn print_row(name: &str, [library, rust]: &[Times; 2]) {
    let side = |times: &Times| {
        let [low, median, high] = [10, 50, 90].map(|percent| readable(times.percentile(percent)));
        format!("{median} | {low} to {high}")
    };
    println!("| {name} | {} | {} | {:.2} |", side(library), side(rust), library.median() / rust.median());
}

pub fn readable(seconds: f64) -> String {
    match seconds.abs() {
        s if s >= 0.9995e-3 => format!("{:.2} ms", seconds * 1e3),
        s if s >= 0.9995e-6 => format!("{:.2} µs", seconds * 1e6),
        _ => format!("{:.0} ns", seconds * 1e9),
    }
}
