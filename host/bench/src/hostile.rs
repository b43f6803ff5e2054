//! Files that are made to take long: how the time grows with the size, beside plain Rust. Each is
//! refused, by both readers for the same reason at the same place.

use std::hint::black_box;
use std::time::{Duration, Instant};

/// The shapes, and how a file of about so many bytes is made.
const SHAPES: [(&str, fn(usize) -> Vec<u8>); 6] = [
    ("units, each names the one before it", |size| {
        units(size, |unit| unit - 1)
    }),
    ("units, each names one far before it", |size| {
        units(size, |unit| scattered(unit) % unit)
    }),
    ("many parameter names", names),
    ("many variants", variants),
    ("a count of units that lies", lies),
    ("32 long definitions", many),
];

pub fn measure(sizes: &[usize]) {
    println!();
    println!("Hostile files: ns for each byte, and the ratio, at each size.");
    for (what, file) in SHAPES {
        print!("{what:38}");
        for &size in sizes {
            let file = file(size);
            let fault = independent::check(&file).expect_err("it is refused");
            assert_eq!(synthdef::refusal(&file), fault.number);
            assert_eq!(synthdef::place(&file), fault.place);
            let proved = fastest(|| synthdef::refusal(black_box(&file)) == 0);
            let rust = fastest(|| independent::check(black_box(&file)).is_ok());
            let per_byte = |time: Duration| time.as_secs_f64() * 1e9 / file.len() as f64;
            print!(
                " {:>9} {:6.3} {:6.3} {:5.2} |",
                file.len(),
                per_byte(proved),
                per_byte(rust),
                proved.as_secs_f64() / rust.as_secs_f64()
            );
        }
        println!();
    }
}

/// The shortest of some runs: the machine has other work.
fn fastest(read: impl Fn() -> bool) -> Duration {
    let mut best = Duration::MAX;
    let begun = Instant::now();
    let mut runs = 0;
    while runs < 3 || (runs < 50 && begun.elapsed() < Duration::from_millis(300)) {
        let start = Instant::now();
        black_box(read());
        best = best.min(start.elapsed());
        runs += 1;
    }
    best
}

fn head(count: u16) -> Vec<u8> {
    let mut file = b"SCgf\0\0\0\x02".to_vec();
    file.extend(count.to_be_bytes());
    file
}

/// A definition's name, no constants, so many parameters and names.
fn front(file: &mut Vec<u8>, name: &[u8], parameters: u32, names: u32) {
    file.push(name.len() as u8);
    file.extend(name);
    file.extend(0u32.to_be_bytes());
    file.extend(parameters.to_be_bytes());
    file.extend(vec![0; 4 * parameters as usize]);
    file.extend(names.to_be_bytes());
}

/// A unit without a name, with one output, and an input that names another's first output.
fn unit(file: &mut Vec<u8>, named: Option<usize>) {
    file.extend([0, 0]);
    file.extend((named.is_some() as u32).to_be_bytes());
    file.extend([0, 0, 0, 1, 0, 0]);
    if let Some(named) = named {
        file.extend((named as u32).to_be_bytes());
        file.extend(0u32.to_be_bytes());
    }
    file.push(0);
}

fn units(size: usize, named: fn(usize) -> usize) -> Vec<u8> {
    let count = size / 21;
    let mut file = head(1);
    front(&mut file, b"a", 0, 0);
    file.extend((count as u32).to_be_bytes());
    for place in 0..count {
        unit(&mut file, (place > 0).then(|| named(place)));
    }
    file.extend([0, 0]);
    file
}

/// A number that has nothing to do with a unit's own.
fn scattered(unit: usize) -> usize {
    ((unit as u64).wrapping_mul(0x9E37_79B9_7F4A_7C15) >> 32) as usize
}

fn names(size: usize) -> Vec<u8> {
    let mut file = head(1);
    front(&mut file, b"a", 1, (size / 6) as u32);
    for _ in 0..size / 6 {
        file.extend([1, b'x', 0, 0, 0, 0]);
    }
    file.extend([0; 6]);
    file
}

/// As many variants as a count can say, each with a name of 255 bytes where the size asks for it.
fn variants(size: usize) -> Vec<u8> {
    let count = 30000;
    let length = (size / count).clamp(1, 255);
    let mut file = head(1);
    front(&mut file, b"a", 0, 0);
    file.extend([0; 4]);
    file.extend((count as u16).to_be_bytes());
    for _ in 0..count {
        file.push(length as u8);
        file.extend(vec![b'x'; length]);
    }
    file
}

/// As many units as a count can say, in a file that ends after some.
fn lies(size: usize) -> Vec<u8> {
    let mut file = head(1);
    front(&mut file, b"a", 0, 0);
    file.extend((i32::MAX as u32).to_be_bytes());
    for place in 0..size / 21 {
        unit(&mut file, place.checked_sub(1));
    }
    file
}

/// Definitions of 2,048 bytes at most but for the last, which is as long as the size asks for.
fn many(size: usize) -> Vec<u8> {
    let mut file = head(32);
    for place in 0..32u8 {
        let count = if place < 31 { 95 } else { size / 21 };
        front(&mut file, &[b'A' + place], 0, 0);
        file.extend((count as u32).to_be_bytes());
        for unit_place in 0..count {
            unit(&mut file, unit_place.checked_sub(1));
        }
        file.extend([0, 0]);
    }
    file
}
