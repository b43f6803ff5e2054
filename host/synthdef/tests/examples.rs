//! The paper's examples on files, and each of its rules once, byte by byte, on both readers.

mod common;

use common::{accepted, refused};
use independent::Definition;

/// A header for so many definitions.
fn header(count: u8) -> Vec<u8> {
    [b"SCgf\0\0\0\x02\0".as_slice(), &[count]].concat()
}

/// A file of one definition `a` with these fields after its name, which stands at 10.
fn one(fields: &[&[u8]]) -> Vec<u8> {
    [header(1).as_slice(), b"\x01a", &fields.concat()].concat()
}

/// An int32.
fn int(number: i32) -> [u8; 4] {
    number.to_be_bytes()
}

const NONE: &[u8] = &[0, 0, 0, 0];
const NO_VARIANTS: &[u8] = &[0, 0];

/// Neither inputs nor outputs, class `U`, rate 2, special index 0.
const UNIT: &[u8] = b"\x01U\x02\0\0\0\0\0\0\0\0\0\0";

#[test]
fn no_definitions() {
    let file = header(0);
    assert_eq!(file.len(), 10);
    accepted(&file);
    assert_eq!(synthdef::count(&file), 0);
    assert_eq!(synthdef::name(&file, 0), None);
    refused(&file[..9], 2, 8);
    assert_eq!(independent::write(&[]).bytes, file);
}

#[test]
fn one_definition_with_every_count_0() {
    let file = one(&[NONE, NONE, NONE, NONE, NO_VARIANTS]);
    assert_eq!(file.len(), 30);
    accepted(&file);
    assert_eq!(synthdef::count(&file), 1);
    assert_eq!(synthdef::name(&file, 0), Some(b"a".as_slice()));
    assert_eq!(synthdef::name(&file, 1), None);
    let definition = Definition {
        name: b"a".to_vec(),
        ..Definition::default()
    };
    assert_eq!(independent::write(&[definition]).bytes, file);
}

#[test]
fn parameters_32_and_33() {
    let file = |count: i32| {
        let values = vec![0x7f; 4 * count as usize];
        one(&[NONE, &int(count), &values, NONE, NONE, NO_VARIANTS])
    };
    accepted(&file(32));
    refused(&file(33), 5, 16);
}

#[test]
fn parameter_index_below_the_count_and_at_it() {
    let file = |count: i32, index: i32| {
        let values = vec![0; 4 * count as usize];
        let name = [b"\x01p".as_slice(), &int(index)].concat();
        one(&[
            NONE,
            &int(count),
            &values,
            &int(1),
            &name,
            NONE,
            NO_VARIANTS,
        ])
    };
    for count in 1..=32 {
        let place = 26 + 4 * count as u64;
        accepted(&file(count, 0));
        accepted(&file(count, count - 1));
        refused(&file(count, count), 8, place);
        refused(&file(count, -1), 8, place);
    }
    refused(&file(0, 0), 8, 26);
}

#[test]
fn a_unit_that_names_itself() {
    // Two units of one output each; the second has one input.
    let file = |from: i32, output: i32| {
        let first = b"\x01U\x02\0\0\0\0\0\0\0\x01\0\0\x02".as_slice();
        let second = b"\x01U\x02\0\0\0\x01\0\0\0\x01\0\0".as_slice();
        let input = [int(from), int(output)].concat();
        one(&[
            NONE,
            NONE,
            NONE,
            &int(2),
            first,
            second,
            &input,
            b"\x02",
            NO_VARIANTS,
        ])
    };
    accepted(&file(0, 0));
    refused(&file(0, 1), 8, 59);
    refused(&file(0, -1), 8, 59);
    refused(&file(1, 0), 8, 55);
    refused(&file(2, 0), 8, 55);
    refused(&file(-2, 0), 8, 55);
    // No constants: any index of one is bad.
    refused(&file(-1, 0), 8, 59);
}

#[test]
fn ping() {
    let file = b"SCgf\0\0\0\x02\0\x01\x04ping\0\0\0\0\0\0\0\x01\x43\xdc\0\0\
        \0\0\0\x01\x04freq\0\0\0\0\0\0\0\0\0\0";
    assert_eq!(file.len(), 46);
    accepted(file);
    assert_eq!(synthdef::names(file).collect::<Vec<_>>(), [b"ping"]);
    let definition = Definition {
        name: b"ping".to_vec(),
        initial: vec![440f32.to_bits()],
        parameters: vec![(b"freq".to_vec(), 0)],
        ..Definition::default()
    };
    assert_eq!(
        independent::write(std::slice::from_ref(&definition)).bytes,
        file
    );
    assert_eq!(independent::read(file), Ok(vec![definition]));
}

#[test]
fn the_header() {
    refused(b"", 2, 0);
    refused(b"SCg", 2, 0);
    refused(b"xxx", 2, 0);
    refused(b"SCgx", 3, 0);
    refused(b"SCgf", 2, 4);
    refused(b"SCgf\0\0\x01", 2, 4);
    for version in [
        b"\0\0\0\0",
        b"\0\0\0\x03",
        b"\x01\0\0\0",
        b"\0\x01\0\x01",
        b"\xff\xff\xff\xff",
    ] {
        refused(&[b"SCgf", version.as_slice()].concat(), 4, 4);
    }
    refused(b"SCgf\0\0\0\x01", 2, 8);
    refused(b"SCgf\0\0\0\x02", 2, 8);
    refused(b"SCgf\0\0\0\x02\xff", 2, 8);
    refused(b"SCgf\0\0\0\x02\xff\xff", 5, 8);
    refused(b"SCgf\0\0\0\x02\0\x21", 5, 8);
    refused(b"SCgf\0\0\0\x02\0\x20", 2, 10);
    refused(b"SCgf\0\0\0\x02\0\0x", 11, 10);
}

#[test]
fn names() {
    let file = |name: &[u8]| {
        let rest = [NONE, NONE, NONE, NONE, NO_VARIANTS].concat();
        [header(1).as_slice(), &[name.len() as u8], name, &rest].concat()
    };
    refused(&file(b""), 6, 10);
    refused(&file(b"a\0"), 6, 10);
    refused(&file(b"a\x80b"), 6, 10);
    refused(&file(b"\xff"), 6, 10);
    accepted(&file(b"\x01\x7f"));
    accepted(&file(&[b'n'; 255]));
    let mut last = [b'n'; 255];
    last[254] = 128;
    refused(&file(&last), 6, 10);
    // Cut comes before bad.
    refused(&file(&[0; 255])[..265], 2, 10);
    // Other names may be empty, and have the same rule for their bytes.
    let parameter =
        |name: &[u8]| one(&[NONE, &int(1), NONE, &int(1), name, NONE, NONE, NO_VARIANTS]);
    accepted(&parameter(b"\0"));
    refused(&parameter(b"\x01\0"), 6, 28);
    let class = |name: &[u8]| one(&[NONE, NONE, NONE, &int(1), name, &UNIT[2..], NO_VARIANTS]);
    accepted(&class(b"\0"));
    refused(&class(b"\x01\x80"), 6, 28);
    let variant = |name: &[u8]| one(&[NONE, NONE, NONE, NONE, b"\0\x01", name]);
    accepted(&variant(b"\0"));
    refused(&variant(b"\x01\x80"), 6, 30);
}

#[test]
fn counts() {
    for bad in [-1, i32::MIN] {
        refused(&one(&[&int(bad)]), 5, 12);
        refused(&one(&[NONE, &int(bad)]), 5, 16);
        refused(&one(&[NONE, NONE, &int(bad)]), 5, 20);
        refused(&one(&[NONE, NONE, NONE, &int(bad)]), 5, 24);
        let unit = [&UNIT[..3], &int(bad)].concat();
        refused(&one(&[NONE, NONE, NONE, &int(1), &unit]), 5, 31);
        let unit = [&UNIT[..7], &int(bad)].concat();
        refused(&one(&[NONE, NONE, NONE, &int(1), &unit]), 5, 35);
    }
    refused(&one(&[NONE, NONE, NONE, NONE, b"\xff\xff"]), 5, 28);
    refused(&one(&[NONE, NONE, NONE, NONE, b"\x80\0"]), 5, 28);
    // The largest counts are in bounds, and the file ends before what they count.
    let huge = int(i32::MAX);
    refused(&one(&[&huge, b"12345678901"]), 2, 24);
    refused(&one(&[NONE, &huge]), 5, 16);
    refused(&one(&[NONE, NONE, &huge]), 2, 24);
    refused(&one(&[NONE, NONE, NONE, &huge, UNIT]), 2, 41);
    let unit = [&UNIT[..3], &huge, &UNIT[7..]].concat();
    refused(&one(&[NONE, NONE, NONE, &int(1), &unit]), 2, 41);
    let unit = [&UNIT[..7], &huge, &UNIT[11..], &[2, 2]].concat();
    refused(&one(&[NONE, NONE, NONE, &int(1), &unit]), 2, 43);
    refused(&one(&[NONE, NONE, NONE, NONE, b"\x7f\xff\0\0"]), 2, 32);
}

#[test]
fn rates() {
    let file = |rate: u8, output: u8| {
        let unit = [
            &UNIT[..2],
            &[rate],
            &UNIT[3..7],
            &int(1),
            &[9, 9],
            &[output],
        ]
        .concat();
        one(&[NONE, NONE, NONE, &int(1), &unit, NO_VARIANTS])
    };
    for rate in 0..=3 {
        for output in 0..=3 {
            accepted(&file(rate, output));
        }
    }
    for bad in 4..=255 {
        refused(&file(bad, bad), 7, 30);
        refused(&file(0, bad), 7, 41);
    }
}

#[test]
fn inputs_from_constants() {
    let file = |index: i32| {
        let unit = [&UNIT[..3], &int(1), &UNIT[7..], &int(-1), &int(index)].concat();
        one(&[&int(2), &[0xff; 8], NONE, NONE, &int(1), &unit, NO_VARIANTS])
    };
    accepted(&file(0));
    accepted(&file(1));
    refused(&file(2), 8, 53);
    refused(&file(-1), 8, 53);
}

/// A definition `a` of so many bytes.
fn long(bytes: usize) -> Vec<u8> {
    let name = vec![b'a'; 1 + bytes % 4];
    let constants = (bytes - 19 - name.len()) / 4;
    let count = int(constants as i32);
    let values = vec![0; 4 * constants];
    let definition = [
        &[name.len() as u8],
        name.as_slice(),
        &count,
        &values,
        NONE,
        NONE,
        NONE,
        NO_VARIANTS,
    ]
    .concat();
    assert_eq!(definition.len(), bytes);
    definition
}

#[test]
fn the_size_limit() {
    let file = |bytes: usize| [header(1), long(bytes)].concat();
    accepted(&file(2047));
    accepted(&file(2048));
    refused(&file(2049), 9, 10);
    refused(&file(100_000), 9, 10);
    // A fault before the definition's end comes first.
    let mut bytes = file(2049);
    let end = bytes.len();
    bytes[end - 2] = 0xff;
    refused(&bytes, 5, end as u64 - 2);
    refused(&bytes[..end - 1], 2, end as u64 - 2);
    // The limit comes before a repeated name and before the next definition.
    refused(&[header(2), long(30), long(2050)].concat(), 9, 40);
    refused(&[header(2), long(2050), vec![0]].concat(), 9, 10);
    // More bytes come after it.
    refused(&[header(1), long(2049), vec![0]].concat(), 9, 10);
    refused(&[header(1), long(2048), vec![0]].concat(), 11, 2058);
}

#[test]
fn a_repeated_name() {
    refused(&[header(2), long(32), long(40)].concat(), 10, 42);
    refused(&[header(3), long(32), long(33), long(32)].concat(), 10, 75);
    // It is found at the end of the later definition, and before what follows that.
    let mut file = [header(2), long(32), long(32)].concat();
    refused(&file[..file.len() - 1], 2, 72);
    file.push(0);
    refused(&file, 10, 42);
    refused(&[header(3), long(32), long(32)].concat(), 10, 42);
}

#[test]
fn names_are_parts_of_the_file() {
    let file = [header(3), long(32), long(33), long(34)].concat();
    accepted(&file);
    let names: Vec<&[u8]> = synthdef::names(&file).collect();
    assert_eq!(names, [b"a".as_slice(), b"aa", b"aaa"]);
    let start = file.as_ptr() as usize;
    let places: Vec<usize> = names
        .iter()
        .map(|name| name.as_ptr() as usize - start)
        .collect();
    assert_eq!(places, [11, 43, 76]);
}
