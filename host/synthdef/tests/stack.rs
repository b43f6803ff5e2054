//! Every call on files, on a thread with 128 KB of stack. Its answers are those of the independent reader.

#[path = "../../stack.rs"]
mod stack;

use independent::{read_versioned, twin, write_as, Random, Shape, Version};
use stack::{long_files, on_little_stack};

/// What all calls answer: the refusal and its place, the version, the count, the names of the first definition and one past the
/// last, and the version 2 file.
#[derive(Debug, Default, PartialEq)]
struct Answers {
    refusal: u32,
    place: u64,
    version: u32,
    count: u32,
    names: [Option<Vec<u8>>; 2],
    widened: Vec<u8>,
}

fn proved(file: &[u8]) -> Answers {
    let mut widened = vec![0; synthdef::LONGEST];
    on_little_stack(|| {
        let count = synthdef::count(file);
        let length = synthdef::widen(file, &mut widened);
        widened.truncate(length);
        Answers {
            refusal: synthdef::refusal(file),
            place: synthdef::place(file),
            version: synthdef::version(file),
            count,
            names: [0, count].map(|index| synthdef::name(file, index).map(<[u8]>::to_vec)),
            widened,
        }
    })
}

fn independent(file: &[u8]) -> Answers {
    match read_versioned(file) {
        Ok((version, definitions)) => Answers {
            version: version.field() as u32,
            count: definitions.len() as u32,
            names: [definitions.first().map(|first| first.name.clone()), None],
            widened: twin(file).bytes,
            ..Answers::default()
        },
        Err(fault) => Answers {
            refusal: fault.number,
            place: fault.place,
            ..Answers::default()
        },
    }
}

#[test]
fn long_definitions() {
    let files = long_files();
    // The shortest that took more than a thread of 512 KB has.
    assert!(files.iter().any(|file| file.len() == 5_419));
    for file in files {
        assert!(proved(&file) == independent(&file), "{} bytes", file.len());
    }
}

#[test]
fn accepted_files() {
    let mut random = Random::new(1);
    for shape in Shape::ALL {
        let definitions = random.definitions(32, &[shape]);
        for version in Version::ALL {
            let file = write_as(version, &definitions).bytes;
            assert_eq!(proved(&file), independent(&file));
        }
    }
}
