//! A thread with as little stack as include/limudvek.h promises to be enough, and files that ask for the most of it. The tests `stack`
//! of the packages that link a proved library take it from here.

use independent::{write_as, Definition, Input, Unit, Version};
use std::thread;

/// What every exported call runs on.
const STACK: usize = 128 << 10;

/// Does some work on a thread with that stack: a call that needs more ends the whole program. What the work holds lies on the heap.
pub fn on_little_stack<T: Send>(work: impl FnOnce() -> T + Send) -> T {
    thread::scope(|scope| {
        let thread = thread::Builder::new().stack_size(STACK);
        let thread = thread.spawn_scoped(scope, work);
        thread.expect("it starts").join().expect("it ends")
    })
}

/// How many units the long definitions have: the fewest that take marks; every second one has a mark, and every third; the most of
/// version 1; and a mark stands for many.
const UNITS: [usize; 7] = [257, 1_000, 16_383, 20_000, 32_767, 131_073, 300_000];

/// Which unit each one names: the one before it, the first, and one anywhere.
const NAMED: [fn(usize) -> usize; 3] = [
    |unit| unit - 1,
    |_| 0,
    |unit| unit.wrapping_mul(0x9E37_79B9) % unit,
];

/// Files with a long definition: it is whole, the last input has an output that is not there, and the end is cut off. Before it
/// there are as many definitions as a file can have, or none.
pub fn long_files() -> Vec<Vec<u8>> {
    let mut files = Vec::new();
    for (count, version) in UNITS
        .iter()
        .flat_map(|&count| Version::ALL.map(|of| (count, of)))
    {
        if count > version.bounds().1 as usize {
            continue;
        }
        for named in NAMED {
            let mut long = units(count, named);
            let file = write_as(version, &[long.clone()]).bytes;
            files.push(file[..file.len() - 3].to_vec());
            files.push(file);
            let mut many: Vec<Definition> = (0..31).map(short).collect();
            many.push(long.clone());
            files.push(write_as(version, &many).bytes);
            long.units[count - 1].inputs[0].index = 1;
            files.push(write_as(version, &[long]).bytes);
        }
    }
    files
}

/// A definition of so many units, each with one output; all but the first name another's.
fn units(count: usize, named: fn(usize) -> usize) -> Definition {
    let unit = |place: usize| Unit {
        inputs: (0..place.min(1))
            .map(|index| Input {
                unit: named(place) as i32,
                index: index as i32,
            })
            .collect(),
        outputs: vec![0],
        ..Unit::default()
    };
    Definition {
        name: b"a".to_vec(),
        units: (0..count).map(unit).collect(),
        ..Definition::default()
    }
}

/// A definition with a name of its own.
fn short(place: u8) -> Definition {
    Definition {
        name: vec![b'A' + place],
        ..Definition::default()
    }
}
