//! Version 1 files by hand, byte by byte, on both readers: each rule that meets a field which is wider
//! in version 2, and the twins.

mod common;

use common::{accepted, refused};

const ZERO: &[u8] = &[0, 0];
const ONE: &[u8] = &[0, 1];
const MINUS_ONE: &[u8] = &[255, 255];
const NO_VARIANTS: &[u8] = &[0, 0];

/// A file of one definition `a` with these fields after its name, which stands at 10.
fn original(fields: &[&[u8]]) -> Vec<u8> {
    let header = b"SCgf\0\0\0\x01\0\x01".as_slice();
    [header, b"\x01a", &fields.concat()].concat()
}

/// A file is accepted, and these are its version and its version 2 twin.
fn widens(file: &[u8], version: u32, twin: &[u8]) {
    accepted(file);
    assert_eq!(synthdef::version(file), version);
    assert_eq!(synthdef::widened(file).as_deref(), Ok(twin));
    assert_eq!(independent::twin(file).bytes, twin);
    let mut out = vec![7; twin.len() + 3];
    assert_eq!(synthdef::widen(file, &mut out[..twin.len() - 1]), 0);
    assert!(out.iter().all(|&byte| byte == 7));
    assert_eq!(synthdef::widen(file, &mut out), twin.len());
    assert_eq!(out, [twin, &[7; 3]].concat());
}

#[test]
fn twins() {
    let header = b"SCgf\0\0\0\x02\0\0";
    widens(b"SCgf\0\0\0\x01\0\0", 1, header);
    widens(header, 2, header);
    let ping = b"SCgf\0\0\0\x01\0\x01\x04ping\0\0\0\x01\x43\xdc\0\0\0\x01\x04freq\0\0\0\0\0\0";
    let twin = b"SCgf\0\0\0\x02\0\x01\x04ping\0\0\0\0\0\0\0\x01\x43\xdc\0\0\
        \0\0\0\x01\x04freq\0\0\0\0\0\0\0\0\0\0";
    widens(ping, 1, twin);
    widens(twin, 2, twin);
    assert_eq!(synthdef::names(ping).collect::<Vec<_>>(), [b"ping"]);
}

/// Each of the nine fields that are wider in version 2, and all the others.
fn every_field(version: u8, number: fn(i32) -> Vec<u8>) -> Vec<u8> {
    let mut file = b"SCgf\0\0\0".to_vec();
    file.push(version);
    file.extend(b"\0\x01\x01a");
    // K, P, N with an index, U.
    file.extend([number(1), b"\x3f\x80\0\0".to_vec()].concat());
    file.extend([number(1), b"\xff\xff\xff\xff".to_vec()].concat());
    file.extend([number(1), b"\x01p".to_vec(), number(0)].concat());
    file.extend(number(2));
    // I and O of each unit, and the inputs of the second.
    file.extend([b"\x01U\x02".to_vec(), number(0), number(1)].concat());
    file.extend(b"\xff\xff\x03");
    file.extend([b"\0\x01".to_vec(), number(2), number(1)].concat());
    file.extend(b"\x7f\xff");
    file.extend([number(-1), number(0), number(0), number(0)].concat());
    file.extend(b"\0");
    file.extend(b"\0\x01\x01v\x80\0\0\0");
    file
}

#[test]
fn every_field_once() {
    let file = every_field(1, |number| (number as i16).to_be_bytes().to_vec());
    let twin = every_field(2, |number| number.to_be_bytes().to_vec());
    widens(&file, 1, &twin);
    assert_eq!(synthdef::name(&file, 0), Some(b"a".as_slice()));
    for length in 0..file.len() {
        let mut out = [7; 200];
        assert_eq!(synthdef::version(&file[..length]), 0);
        assert_eq!(synthdef::widen(&file[..length], &mut out), 0);
        assert_eq!(out, [7; 200]);
    }
}

#[test]
fn counts() {
    for bad in [MINUS_ONE, &[128, 0]] {
        refused(&original(&[bad]), 5, 12);
        refused(&original(&[ZERO, bad]), 5, 14);
        refused(&original(&[ZERO, ZERO, bad]), 5, 16);
        refused(&original(&[ZERO, ZERO, ZERO, bad]), 5, 18);
        refused(
            &original(&[ZERO, ZERO, ZERO, ONE, b"\x01U\x02", bad]),
            5,
            23,
        );
        refused(
            &original(&[ZERO, ZERO, ZERO, ONE, b"\x01U\x02", ZERO, bad]),
            5,
            25,
        );
        refused(&original(&[ZERO, ZERO, ZERO, ZERO, bad]), 5, 20);
    }
    accepted(&original(&[
        ZERO,
        b"\0\x20",
        &[9; 128],
        ZERO,
        ZERO,
        NO_VARIANTS,
    ]));
    refused(
        &original(&[ZERO, b"\0\x21", &[9; 132], ZERO, ZERO, NO_VARIANTS]),
        5,
        14,
    );
    // The largest counts are in bounds, and the file ends before what they count.
    refused(&original(&[b"\x7f\xff", b"12345678901"]), 2, 22);
    refused(&original(&[ZERO, ZERO, b"\x7f\xff"]), 2, 18);
    refused(&original(&[ZERO, ZERO, ZERO, b"\x7f\xff"]), 2, 20);
    // Cut within a field.
    refused(&original(&[ZERO, b"\xff"]), 2, 14);
    refused(
        &original(&[ZERO, ZERO, ZERO, ONE, b"\x01U\x02", ZERO, b"\xff"]),
        2,
        25,
    );
}

#[test]
fn indices() {
    let parameter =
        |index: &[u8]| original(&[ZERO, ONE, &[0; 4], ONE, b"\x01p", index, ZERO, NO_VARIANTS]);
    accepted(&parameter(ZERO));
    refused(&parameter(ONE), 8, 24);
    refused(&parameter(MINUS_ONE), 8, 24);
    // Two units of one output each; the second has one input, and there is one constant.
    let input = |unit: &[u8], index: &[u8]| {
        let first = [b"\x01U\x02", ZERO, ONE, &[0, 0, 2]].concat();
        let second = [b"\x01U\x02", ONE, ONE, &[0, 0]].concat();
        original(&[
            ONE,
            &[0; 4],
            ZERO,
            ZERO,
            &[0, 2],
            &first,
            &second,
            unit,
            index,
            b"\x02",
            NO_VARIANTS,
        ])
    };
    accepted(&input(ZERO, ZERO));
    refused(&input(ZERO, ONE), 8, 45);
    refused(&input(ZERO, MINUS_ONE), 8, 45);
    refused(&input(ONE, ZERO), 8, 43);
    // -1 stays -1, and no other number below 0 does.
    accepted(&input(MINUS_ONE, ZERO));
    refused(&input(MINUS_ONE, ONE), 8, 45);
    refused(&input(MINUS_ONE, MINUS_ONE), 8, 45);
    refused(&input(&[255, 254], ZERO), 8, 43);
    refused(&input(&[128, 0], ZERO), 8, 43);
    refused(&input(&[0, 255], ZERO), 8, 43);
}

/// A definition `a` with so many empty units and constants.
fn long(units: usize, constants: usize) -> Vec<u8> {
    let count = |count: usize| (count as i16).to_be_bytes();
    let values = vec![0; 4 * constants];
    let unit = [0; 8].repeat(units);
    [
        b"\x01a",
        count(constants).as_slice(),
        &values,
        ZERO,
        ZERO,
        &count(units),
        &unit,
        NO_VARIANTS,
    ]
    .concat()
}

#[test]
fn the_size_limit() {
    // In version 2 it takes 20 bytes, 12 for a unit and 4 for a constant.
    let file = |definitions: &[Vec<u8>]| {
        let header = [b"SCgf\0\0\0\x01\0", [definitions.len() as u8].as_slice()].concat();
        [header, definitions.concat()].concat()
    };
    let most = long(169, 0);
    assert_eq!(most.len(), 12 + 8 * 169);
    let most = file(&[most]);
    accepted(&most);
    assert_eq!(
        synthdef::widened(&most).map(|twin| twin.len()),
        Ok(10 + 2048)
    );
    refused(&file(&[long(170, 0)]), 9, 10);
    accepted(&file(&[long(1, 504)]));
    refused(&file(&[long(1, 505)]), 9, 10);
    accepted(&file(&[long(0, 507)]));
    // 2,048 bytes in the file, and 2,056 in version 2.
    assert_eq!(long(0, 509).len(), 2048);
    refused(&file(&[long(0, 509)]), 9, 10);
    // The place is the definition's in the file; the limit comes before a repeated name.
    let first = long(169, 0);
    refused(&file(&[first.clone(), long(170, 0)]), 9, 10 + 12 + 8 * 169);
    refused(&file(&[first.clone(), long(0, 0)]), 10, 10 + 12 + 8 * 169);
    refused(&[file(&[first]), vec![0]].concat(), 11, 10 + 12 + 8 * 169);
}
