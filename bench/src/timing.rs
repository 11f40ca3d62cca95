//! Times of two sides. A machine's speed may change by a factor of two within seconds, so both run in turn in
//! many short rounds, and what counts is the median of the rounds' ratios.

use std::time::{Duration, Instant};

const ROUNDS: usize = 401;
/// For both sides together.
const ROUND_TIME: Duration = Duration::from_millis(4);

/// Nanoseconds for one call of each side, and proved / twin.
pub struct Figure {
    pub proved: f64,
    pub twin: f64,
    pub ratio: f64,
}

pub fn measure(mut proved: impl FnMut(), mut twin: impl FnMut()) -> Figure {
    let repeats = repeats_for(|| {
        proved();
        twin();
    });
    let (mut proved_times, mut twin_times, mut ratios) = (Vec::new(), Vec::new(), Vec::new());
    for round in 0..ROUNDS {
        // Each side goes first in every other round, so that neither has the better place.
        let (a, b) = if round % 2 == 0 {
            let a = time(repeats, &mut proved);
            (a, time(repeats, &mut twin))
        } else {
            let b = time(repeats, &mut twin);
            (time(repeats, &mut proved), b)
        };
        proved_times.push(a);
        twin_times.push(b);
        ratios.push(a / b);
    }
    Figure { proved: median(proved_times), twin: median(twin_times), ratio: median(ratios) }
}

/// How many calls fill a round: counted on the quickest of a few, after the first have warmed the caches.
fn repeats_for(mut call: impl FnMut()) -> u32 {
    let quickest = (0..20).map(|_| time(1, &mut call)).fold(f64::MAX, f64::min);
    (ROUND_TIME.as_nanos() as f64 / quickest.max(1.0)).ceil() as u32
}

/// Nanoseconds for one of the calls.
fn time(repeats: u32, call: &mut impl FnMut()) -> f64 {
    let start = Instant::now();
    for _ in 0..repeats {
        call();
    }
    start.elapsed().as_nanos() as f64 / repeats as f64
}

fn median(mut values: Vec<f64>) -> f64 {
    values.sort_by(f64::total_cmp);
    values[values.len() / 2]
}
