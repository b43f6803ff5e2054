//! Version 1 files and their version 2 twins, on the independent side alone: the writer's map of the
//! fields, the reader and the copying field by field must agree on files of every kind.

use independent::files::{Kind, Known};
use independent::{check, read_versioned, twin, write, write_as, Definition, Fault};
use independent::{Random, Version};

#[test]
fn a_twin_is_read_as_its_file_is() {
    let mut count = 0;
    for (place, kind) in Kind::ALL.iter().enumerate() {
        let random = Random::new(place as u64);
        kind.one_in(10, Version::One, random, &mut |file, known| {
            count += 1;
            compare(kind.name, file, known);
        });
    }
    assert!(count >= 30_000, "only {count} files");
}

fn compare(kind: &str, file: &[u8], known: Known) {
    let answer = read_versioned(file);
    let fault = answer.as_ref().err().copied();
    if let Known::Answer(known) | Known::Written(_, known) = known {
        assert_eq!(fault, known.err(), "{kind}: {file:?}");
    }
    if let Known::Written(definitions, Ok(())) = known {
        let known = (Version::One, definitions.to_vec());
        assert_eq!(answer.as_ref(), Ok(&known), "{kind}: {file:?}");
    }
    let twin = twin(file);
    assert_eq!(check(&twin.bytes).err(), twin.fault, "{kind}: {file:?}");
    match answer {
        Ok((_, definitions)) => {
            assert_eq!(twin.fault, None, "{kind}: {file:?}");
            assert_eq!(twin.bytes, write(&definitions).bytes, "{kind}: {file:?}");
        }
        Err(fault) => {
            let number = twin.fault.map(|moved| moved.number);
            assert_eq!(number, Some(fault.number), "{kind}: {file:?}");
        }
    }
}

/// A definition `a` that takes so many bytes in version 2, with as many units as asked for. Each takes
/// four bytes fewer in version 1.
fn long(bytes: usize, units: usize) -> Definition {
    let mut definition = Definition {
        name: b"a".to_vec(),
        units: vec![Default::default(); units],
        ..Definition::default()
    };
    Random::new(1).lengthen(&mut definition, bytes);
    definition
}

#[test]
fn the_limit_is_on_the_twin() {
    for units in [0, 1, 20, 160] {
        for (bytes, answer) in [
            (2047, Ok(())),
            (2048, Ok(())),
            (2049, Err(Fault::new(9, 10))),
        ] {
            let definition = long(bytes, units);
            // Of the four counts of a definition, too, each takes two bytes fewer.
            assert_eq!(definition.size_in(Version::One), bytes - 8 - 4 * units);
            let file = write_as(Version::One, &[definition]);
            assert_eq!(file.fault().map_or(Ok(()), Err), answer);
            assert_eq!(check(&file.bytes), answer);
        }
    }
}

#[test]
fn a_fault_moves_with_its_field() {
    let moved = |file: &[u8], number: u32, from: usize, to: usize| {
        let twin = twin(file);
        assert_eq!(check(file), Err(Fault::new(number, from)));
        assert_eq!(twin.fault, Some(Fault::new(number, to)));
        assert_eq!(check(&twin.bytes).err(), twin.fault);
    };
    let head = b"SCgf\0\0\0\x01\0\x01\x01a";
    let file = |rest: &[u8]| [head.as_slice(), rest].concat();
    // K, P, N and U, the highest and the lowest that are refused.
    moved(&file(b"\xff\xff"), 5, 12, 12);
    moved(&file(b"\x80\0"), 5, 12, 12);
    moved(&file(b"\0\0\0\x21"), 5, 14, 16);
    moved(&file(b"\0\0\0\0\xff\xff"), 5, 16, 20);
    moved(&file(b"\0\0\0\0\0\0\xff\xff"), 5, 18, 24);
    // A parameter's index.
    moved(&file(b"\0\0\0\0\0\x01\0\0\0"), 8, 19, 25);
    // I and O, an input's unit, its constant, a rate, V.
    moved(&file(b"\0\0\0\0\0\0\0\x01\0\0\xff\xff"), 5, 22, 30);
    moved(&file(b"\0\0\0\0\0\0\0\x01\0\0\0\0\xff\xff"), 5, 24, 34);
    moved(
        &file(b"\0\0\0\0\0\0\0\x01\0\0\0\x01\0\0\0\0\0\0"),
        8,
        28,
        40,
    );
    moved(
        &file(b"\0\0\0\0\0\0\0\x01\0\0\0\x01\0\0\0\0\xff\xff\0\0"),
        8,
        30,
        44,
    );
    moved(
        &file(b"\0\0\0\0\0\0\0\x01\0\0\0\0\0\x01\0\0\x04"),
        7,
        28,
        40,
    );
    moved(&file(b"\0\0\0\0\0\0\0\0\xff\xff"), 5, 20, 28);
    // Cut within a number, and bytes after the end.
    moved(&file(b"\0\0\0\0\0"), 2, 16, 20);
    moved(&file(b"\0\0\0\0\0\0\0\0\0\0\xff"), 11, 22, 30);
    // What is no version 1 file is its own twin.
    for other in [
        b"SCgf\0\0\0\x03".as_slice(),
        b"SCgg\0\0\0\x01",
        b"SCgf\0\0\0",
    ] {
        assert_eq!(twin(other).bytes, other);
        assert_eq!(twin(other).fault, check(other).err());
    }
}
