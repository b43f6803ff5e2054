//! Times as the least of many short samples: what else the machine does only adds to a time.

use std::time::{Duration, Instant};

pub const SAMPLES: usize = 201;
const SAMPLE: Duration = Duration::from_micros(200);

/// The least time of each work in nanoseconds. They take turns, a sample each.
pub fn least(works: Vec<Box<dyn FnMut() + '_>>) -> Vec<f64> {
    least_of(SAMPLES, works)
}

/// The same of so many samples.
pub fn least_of(samples: usize, mut works: Vec<Box<dyn FnMut() + '_>>) -> Vec<f64> {
    let turns: Vec<usize> = works.iter_mut().map(turns).collect();
    let mut times = vec![Duration::MAX; works.len()];
    for _ in 0..samples {
        for ((work, &turns), best) in works.iter_mut().zip(&turns).zip(&mut times) {
            *best = time(turns, work).min(*best);
        }
    }
    let each = |(time, turns): (Duration, usize)| time.as_secs_f64() * 1e9 / turns as f64;
    times.into_iter().zip(turns).map(each).collect()
}

/// How many turns fill a sample.
fn turns(work: &mut Box<dyn FnMut() + '_>) -> usize {
    let mut turns = 1;
    while time(turns, &mut *work) < SAMPLE {
        turns *= 2;
    }
    turns
}

fn time(turns: usize, mut work: impl FnMut()) -> Duration {
    let start = Instant::now();
    for _ in 0..turns {
        work();
    }
    start.elapsed()
}
