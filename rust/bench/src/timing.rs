//! How a time is taken: the contenders of a row take turns, each turn is a loop of some milliseconds, and
//! the least time of all turns counts, which a busy machine disturbs least.

use std::time::{Duration, Instant};

const TURNS: usize = 15;
const TURN: Duration = Duration::from_millis(4);

/// One contender: what it is, and one run of the work.
pub struct Contender<'a> {
    pub name: &'a str,
    pub run: &'a mut dyn FnMut(),
}

fn nanoseconds(run: &mut dyn FnMut(), count: u32) -> f64 {
    let start = Instant::now();
    for _ in 0..count {
        run();
    }
    start.elapsed().as_nanos() as f64 / f64::from(count)
}

/// How many runs fill a turn.
fn count_for(run: &mut dyn FnMut()) -> u32 {
    let mut count = 1;
    loop {
        let start = Instant::now();
        nanoseconds(run, count);
        let taken = start.elapsed();
        if taken >= TURN || count >= 1 << 24 {
            return count;
        }
        count *= 2;
    }
}

/// The least nanoseconds of each contender, in the order given.
pub fn race(contenders: &mut [Contender]) -> Vec<f64> {
    let counts: Vec<u32> = contenders.iter_mut().map(|c| count_for(c.run)).collect();
    let mut best = vec![f64::INFINITY; contenders.len()];
    for _ in 0..TURNS {
        for (i, contender) in contenders.iter_mut().enumerate() {
            best[i] = best[i].min(nanoseconds(contender.run, counts[i]));
        }
    }
    best
}

/// Races the contenders, the first being ours, and prints a line of the table for each peer.
pub fn row(case: &str, contenders: &mut [Contender]) {
    let best = race(contenders);
    for (contender, time) in contenders.iter().zip(&best).skip(1) {
        print(case, best[0], contender.name, *time);
    }
}

/// Prints a line of the table.
pub fn print(case: &str, ours: f64, peer: &str, time: f64) {
    let ratio = ours / time;
    println!("| {case} | {ours:.0} | {peer} | {time:.0} | {ratio:.2} |");
}

/// The same for times that were taken singly: below ten nanoseconds they are the clock's noise, and
/// have no ratio.
pub fn print_single(case: &str, ours: f64, peer: &str, time: f64) {
    let shown = |time: f64| match time < 10.0 {
        true => "below 10".to_string(),
        false => format!("{time:.0}"),
    };
    if ours.min(time) < 10.0 {
        println!("| {case} | {} | {peer} | {} | |", shown(ours), shown(time));
    } else {
        print(case, ours, peer, time);
    }
}
