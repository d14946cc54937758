//! Several ways to do one thing, measured in turn and compared.

use std::time::Instant;

pub const ROUNDS: usize = 301;
/// About how long one measurement takes, unless a single run takes longer.
const NANOSECONDS: f64 = 1_000_000.0;
/// Where all rounds would take longer than this there are fewer.
const MOST_NANOSECONDS: f64 = 5_000_000_000.0;
const LEAST_ROUNDS: usize = 5;

/// One way to do it.
pub struct Way<'a> {
    name: &'static str,
    run: Box<dyn FnMut() + 'a>,
}

impl<'a> Way<'a> {
    pub fn new(name: &'static str, run: impl FnMut() + 'a) -> Self {
        Way { name, run: Box::new(run) }
    }

    /// How many runs take about as long as one measurement should.
    fn repeats(&mut self) -> usize {
        if self.time(1) > NANOSECONDS {
            1
        } else {
            (NANOSECONDS / self.time(50)) as usize + 1
        }
    }

    /// Nanoseconds of one run, over so many.
    fn time(&mut self, repeats: usize) -> f64 {
        let start = Instant::now();
        (0..repeats).for_each(|_| (self.run)());
        start.elapsed().as_nanos() as f64 / repeats as f64
    }
}

pub struct Time {
    pub median: f64,
    best: f64,
}

/// Prints how long each way takes, and the first one's time over each other's.
pub fn compare(ways: &mut [Way]) {
    let times = in_turn(ways);
    for (way, time) in ways.iter().zip(&times) {
        println!("  {:8} {:10.1} ns (median), {:10.1} (best)", way.name, time.median, time.best);
    }
    for (way, time) in ways.iter().zip(&times).skip(1) {
        let (median, best) = (times[0].median / time.median, times[0].best / time.best);
        println!("  {} / {:8} {median:5.2} (median), {best:5.2} (best)", ways[0].name, way.name);
    }
    println!();
}

/// Measures all in turn, so that what else the machine does meets them alike: nanoseconds of one run of each.
pub fn in_turn(ways: &mut [Way]) -> Vec<Time> {
    let repeats: Vec<usize> = ways.iter_mut().map(Way::repeats).collect();
    let turn: f64 = ways.iter_mut().zip(&repeats).map(|(way, &repeats)| way.time(repeats) * repeats as f64).sum();
    let rounds = ((MOST_NANOSECONDS / turn) as usize).clamp(LEAST_ROUNDS, ROUNDS);
    let mut times = vec![Vec::new(); ways.len()];
    for _ in 0..rounds {
        for (i, way) in ways.iter_mut().enumerate() {
            times[i].push(way.time(repeats[i]));
        }
    }
    times.into_iter().map(summary).collect()
}

fn summary(mut times: Vec<f64>) -> Time {
    times.sort_by(f64::total_cmp);
    Time { median: times[times.len() / 2], best: times[0] }
}
