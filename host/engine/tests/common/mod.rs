//! What the tests share. Each takes what it needs of it.
#![allow(dead_code)]

pub mod damage;
pub mod desk;
pub mod lent;
pub mod osc;
pub mod pair;
pub mod settings;
pub mod shapes;
pub mod shuffle;
pub mod stores;
pub mod tally;

use independent::Random;
use std::io::Write;
use std::sync::atomic::{AtomicUsize, Ordering};
use std::sync::Mutex;
use std::thread;
use std::time::{SystemTime, UNIX_EPOCH};

/// Set by the environment, else from the clock. It is printed.
pub fn seed() -> u64 {
    let seed = match std::env::var("LIMUDVEK_SEED") {
        Ok(text) => text.parse().expect("LIMUDVEK_SEED is a number"),
        Err(_) => {
            let time = SystemTime::now().duration_since(UNIX_EPOCH);
            time.expect("the clock is past 1970").as_micros() as u64
        }
    };
    say(&format!("LIMUDVEK_SEED={seed}"));
    seed
}

/// Prints a line that the test's success does not hide.
pub fn say(line: &str) {
    writeln!(std::io::stderr(), "{line}").expect("standard error is open");
}

/// Does the work of each place below a count, on all cores. Answers what the works found.
pub fn spread<T: Send>(count: usize, work: impl Fn(usize) -> T + Sync) -> Vec<T> {
    let next = AtomicUsize::new(0);
    let found = Mutex::new(Vec::new());
    let workers = thread::available_parallelism().map_or(1, |count| count.get());
    thread::scope(|scope| {
        for _ in 0..workers {
            scope.spawn(|| loop {
                let place = next.fetch_add(1, Ordering::Relaxed);
                if place >= count {
                    break;
                }
                let own = work(place);
                found.lock().expect("no work failed").push(own);
            });
        }
    });
    found.into_inner().expect("no work failed")
}

/// Random sequences of turns, on all cores. Answers what each ends with.
pub fn sequences<S, T: Send>(
    count: usize,
    length: usize,
    start: fn(Random) -> S,
    turn: fn(&mut S) -> Result<(), String>,
    end: fn(S) -> T,
) -> Vec<T> {
    let seed = seed();
    spread(count, |place| {
        let mut sequence = start(Random::new(seed.wrapping_add((place as u64) << 32)));
        for at in 0..length {
            if let Err(what) = turn(&mut sequence) {
                panic!("LIMUDVEK_SEED={seed}, sequence {place}, turn {at}: {what}");
            }
        }
        end(sequence)
    })
}
