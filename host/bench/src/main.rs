//! The proved reader's time as a multiple of the independent Rust reader's, on the same files in
//! one run, with the same definitions in both versions. Run it by `cargo run --release -p bench`.

mod hostile;

use independent::{write_as, Definition, Random, Shape, Version, MOST_BYTES, MOST_DEFINITIONS};
use std::hint::black_box;
use std::time::{Duration, Instant};

const SEED: u64 = 1;
const SAMPLES: usize = 101;
const SAMPLE: Duration = Duration::from_millis(4);

fn main() {
    println!("Proved reader against independent Rust reader, both on the same accepted files.");
    println!(
        "The buffers are not cleared: the files are made before the clock starts, each reader"
    );
    println!("reads them all once untimed, and neither writes to them.");
    println!(
        "Each time is the median of {SAMPLES} samples; the two readers take turns. Seed {SEED}."
    );
    println!("Times are ns for each byte of the file.");
    println!();
    println!(
        "{:44} {:>7} {:>9} {:>9} {:>9} {:>6}",
        "files", "version", "bytes", "proved", "Rust", "ratio"
    );
    let mut random = Random::new(SEED);
    measure("200 files of 32 small definitions", &small(&mut random));
    let some = Shape {
        name: 8,
        constants: 8,
        units: 200,
        inputs: 3,
        ..Shape::SMALL
    };
    measure(
        "200 definitions of 2,048 bytes, inputs",
        &full(&mut random, &some, 200),
    );
    let most = Shape {
        units: 169,
        ..Shape::EMPTY
    };
    measure(
        "200 definitions of 2,048 bytes, most units",
        &full(&mut random, &most, 200),
    );
    measure(
        "one file of 32 definitions of 2,048 bytes",
        &[long(&mut random, &some)],
    );
    hostile::measure(&[64 << 10, 256 << 10, 1 << 20, 4 << 20, 16 << 20, 64 << 20]);
}

/// What a file holds.
type Definitions = Vec<Definition>;

fn small(random: &mut Random) -> Vec<Definitions> {
    (0..200)
        .map(|_| random.definitions(MOST_DEFINITIONS, &[Shape::SMALL]))
        .collect()
}

/// Files of one definition each, of just 2,048 bytes, nearly all of them units.
fn full(random: &mut Random, shape: &Shape, count: usize) -> Vec<Definitions> {
    let mut files = Vec::new();
    while files.len() < count {
        let mut definition = random.short_definition(shape);
        if definition.size() > MOST_BYTES - 60 {
            random.lengthen(&mut definition, MOST_BYTES);
            files.push(vec![definition]);
        }
    }
    files
}

/// One file as long as an accepted file can be.
fn long(random: &mut Random, shape: &Shape) -> Definitions {
    let mut definitions = full(random, shape, MOST_DEFINITIONS).concat();
    for (place, definition) in definitions.iter_mut().enumerate() {
        definition.name[0] = b'A' + place as u8;
    }
    definitions
}

/// The same definitions in both versions.
fn measure(what: &str, files: &[Definitions]) {
    for version in [Version::Two, Version::One] {
        let write = |definitions: &Definitions| write_as(version, definitions).bytes;
        let files: Vec<Vec<u8>> = files.iter().map(write).collect();
        measure_files(what, version, &files);
    }
}

fn measure_files(what: &str, version: Version, files: &[Vec<u8>]) {
    let bytes: usize = files.iter().map(Vec::len).sum();
    for file in files {
        assert_eq!(synthdef::refusal(file), 0);
        assert_eq!(independent::check(file), Ok(()));
    }
    let proved = || {
        files
            .iter()
            .all(|file| synthdef::refusal(black_box(file)) == 0)
    };
    let rust = || {
        files
            .iter()
            .all(|file| independent::check(black_box(file)).is_ok())
    };
    let turns = turns(proved).max(turns(rust));
    let mut times = (Vec::new(), Vec::new());
    for _ in 0..SAMPLES {
        times.0.push(time(turns, proved));
        times.1.push(time(turns, rust));
    }
    let per_byte =
        |times: Vec<Duration>| median(times).as_secs_f64() * 1e9 / (turns * bytes) as f64;
    let (proved, rust) = (per_byte(times.0), per_byte(times.1));
    println!(
        "{what:44} {:>7} {bytes:>9} {:>9} {:>9} {:>6.2}",
        version.field(),
        format!("{proved:.3}"),
        format!("{rust:.3}"),
        proved / rust
    );
}

/// How many turns fill a sample.
fn turns(reader: impl Fn() -> bool) -> usize {
    let mut turns = 1;
    while time(turns, &reader) < SAMPLE {
        turns *= 2;
    }
    turns
}

fn time(turns: usize, reader: impl Fn() -> bool) -> Duration {
    let start = Instant::now();
    for _ in 0..turns {
        black_box(reader());
    }
    start.elapsed()
}

fn median(mut times: Vec<Duration>) -> Duration {
    times.sort();
    times[times.len() / 2]
}
