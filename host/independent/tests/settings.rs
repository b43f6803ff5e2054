//! Saved settings by hand, from paper 02, 8/14, on the independent engine.

use independent::settings::contents;
use independent::{drop_version, read_store, write, Command, Definition, Engine, Fault, Key};
use independent::{Named, Saved, Setting, Value};

/// A field as it lies in a store.
fn field(tag: u8, bytes: &[u8]) -> Vec<u8> {
    let length = (bytes.len() as u16).to_be_bytes();
    [&[tag], &length[..], bytes].concat()
}

fn name(name: &[u8]) -> Vec<u8> {
    field(1, name)
}

fn version(version: u32) -> Vec<u8> {
    field(2, &version.to_be_bytes())
}

fn setting(name: &[u8], value: u32) -> Vec<u8> {
    field(3, &[name, &value.to_be_bytes()].concat())
}

fn highest(version: u32) -> Vec<u8> {
    field(4, &version.to_be_bytes())
}

fn is_formed(fields: &[Vec<u8>]) -> bool {
    read_store(&fields.concat()).is_some()
}

fn refused<T>(number: u32) -> Result<T, Fault> {
    Err(Fault { number, place: 0 })
}

/// A definition with these initial values and entries.
fn definition(name: &[u8], initial: &[u32], entries: &[(&[u8], i32)]) -> Definition {
    Definition {
        name: name.to_vec(),
        initial: initial.to_vec(),
        parameters: entries
            .iter()
            .map(|(name, index)| (name.to_vec(), *index))
            .collect(),
        ..Definition::default()
    }
}

/// An engine that has loaded these, with a synth of each, 1000 and so on, and group 1.
fn engine(definitions: &[Definition]) -> Engine {
    let mut engine = Engine::new();
    let file = write(definitions).bytes;
    done(&mut engine, &Command::Receive(&file));
    let group = Command::NewGroup {
        number: 1,
        action: 1,
        target: 0,
    };
    done(&mut engine, &group);
    for (number, definition) in (1000..).zip(definitions) {
        synth(&mut engine, &definition.name, number);
    }
    engine
}

fn done(engine: &mut Engine, command: &Command) {
    assert_eq!(engine.apply(command, &mut []), Ok(0), "{command:?}");
}

fn synth(engine: &mut Engine, definition: &[u8], number: i32) {
    let command = Command::NewSynth {
        definition,
        number,
        action: 1,
        target: 0,
    };
    done(engine, &command);
}

fn set(engine: &mut Engine, node: i32, index: i32, value: u32) {
    let command = Command::Set {
        node,
        key: Key::Index(index),
        value: Value::Float(value),
    };
    done(engine, &command);
}

fn map(engine: &mut Engine, node: i32, index: i32, bus: i32) {
    let key = Key::Index(index);
    done(engine, &Command::Map { node, key, bus });
}

/// A synth's own floats and mappings.
fn controls(engine: &Engine, number: i32) -> Vec<(u32, Option<usize>)> {
    let nodes = engine.view().nodes;
    let node = nodes.into_iter().find(|node| node.number == number);
    let synth = node.and_then(|node| node.synth).expect("it is a synth");
    let controls = synth.controls.iter();
    controls.map(|control| (control.own, control.bus)).collect()
}

/// Two controls of one name each.
fn rain() -> Definition {
    definition(b"rain", &[5, 6], &[(b"amp", 0), (b"fade", 1)])
}

#[test]
fn a_first_save_byte_for_byte() {
    let engine = engine(&[rain()]);
    let mut store = [0xff; 64];
    store[0] = 0;
    assert_eq!(engine.save(1000, &mut store), Ok(1));
    let mut expected = b"\x01\0\x04rain\x04\0\x04\0\0\0\x01\x02\0\x04\0\0\0\x01".to_vec();
    expected.extend(b"\x03\0\x07amp\0\0\0\x05\x03\0\x08fade\0\0\0\x06");
    expected.resize(64, 0);
    assert_eq!(store.to_vec(), expected);
    // The second is last under its name.
    let mut store = [expected, vec![0; 64]].concat();
    assert_eq!(engine.save(1000, &mut store), Ok(2));
    let entries = read_store(&store).expect("it is formed");
    assert_eq!(entries.len(), 1);
    assert_eq!(entries[0].highest, 2);
    assert_eq!(
        entries[0]
            .versions
            .iter()
            .map(|saved| saved.version)
            .collect::<Vec<_>>(),
        [1, 2]
    );
}

/// The entries (a, 1), (a, 2), (b, 2): control 1 is saved as a, control 2 as b, control 0 not at all.
#[test]
fn the_first_name_that_looks_up_to_it() {
    let entries: [(&[u8], i32); 3] = [(b"a", 1), (b"a", 2), (b"b", 2)];
    let engine = engine(&[definition(b"d", &[7, 8, 9], &entries)]);
    let mut store = [0; 100];
    assert_eq!(engine.save(1000, &mut store), Ok(1));
    let expected = [
        name(b"d"),
        highest(1),
        version(1),
        setting(b"a", 8),
        setting(b"b", 9),
    ];
    let expected = expected.concat();
    assert_eq!(store[..expected.len()], expected);
    assert!(store[expected.len()..].iter().all(|&byte| byte == 0));
}

/// In index order, whatever the definition's; of two names the first; an empty name is one; a name whose first entry is another control's is
/// not this one's.
#[test]
fn names_of_controls() {
    let entries: [(&[u8], i32); 7] = [
        (b"z", 3),
        (b"y", 2),
        (b"x", 2),
        (b"", 0),
        (b"z", 1),
        (b"y", 1),
        (b"z", 4),
    ];
    let engine = engine(&[definition(b"d", &[1, 2, 3, 4, 5], &entries)]);
    let mut store = [0; 100];
    assert_eq!(engine.save(1000, &mut store), Ok(1));
    let entries = read_store(&store).expect("it is formed");
    let settings: Vec<(&[u8], u32)> = entries[0].versions[0]
        .settings
        .iter()
        .map(|setting| (setting.name.as_slice(), setting.value))
        .collect();
    let expected: [(&[u8], u32); 3] = [(b"", 1), (b"y", 3), (b"z", 4)];
    assert_eq!(settings, expected);
}

/// The own floats are saved, also where mapped, and from a synth whose definition is retired.
#[test]
fn own_floats_of_its_own_definition() {
    let mut engine = engine(&[rain()]);
    set(&mut engine, 1000, 0, 0x7f80_0001);
    map(&mut engine, 1000, 0, 7);
    let command = Command::SetBus {
        bus: 7,
        value: Value::Float(99),
    };
    done(&mut engine, &command);
    done(&mut engine, &Command::Delete(b"rain"));
    let mut store = [0; 100];
    assert_eq!(engine.save(1000, &mut store), Ok(1));
    assert_eq!(engine.save(-1, &mut store), Ok(2));
    let entries = read_store(&store).expect("it is formed");
    for saved in &entries[0].versions {
        assert_eq!(saved.settings[0].value, 0x7f80_0001);
        assert_eq!(saved.settings[1].value, 6);
    }
}

/// Names by first save; a name's later versions stay under it.
#[test]
fn names_stand_by_first_save() {
    let engine = engine(&[definition(b"b", &[], &[]), definition(b"a", &[], &[])]);
    let mut store = [0; 200];
    for (node, version) in [(1000, 1), (1001, 1), (1000, 2), (1001, 2), (1000, 3)] {
        assert_eq!(engine.save(node, &mut store), Ok(version));
    }
    let expected = [
        [name(b"b"), highest(3), version(1), version(2), version(3)].concat(),
        [name(b"a"), highest(2), version(1), version(2)].concat(),
    ];
    assert_eq!(store[..expected.concat().len()], expected.concat());
}

/// In stored order; names that it lacks are skipped; of two that mean one control the later stays; what none means stays, mapped or not.
#[test]
fn a_recall_sets_by_name() {
    let entries: [(&[u8], i32); 4] = [(b"fade", 0), (b"amp", 2), (b"loud", 2), (b"pan", 3)];
    let mut engine = engine(&[rain(), definition(b"other", &[1, 2, 3, 4], &entries)]);
    for index in 0..4 {
        map(&mut engine, 1001, index, 5);
    }
    let store = [
        name(b"rain"),
        highest(9),
        version(3),
        setting(b"loud", 30),
        setting(b"amp", 31),
        setting(b"none", 32),
        setting(b"fade", 0xffff_ffff),
        version(9),
        setting(b"pan", 90),
    ];
    let store = store.concat();
    let expected = [(0xffff_ffff, None), (2, Some(5)), (31, None), (4, Some(5))];
    let mut first = engine.clone();
    assert_eq!(first.recall(b"rain", 3, 1001, &store), Ok(()));
    assert_eq!(controls(&first, 1001), expected);
    assert_eq!(controls(&first, 1000), controls(&engine, 1000));
    // The latest synth is 1001 too.
    let mut latest = engine.clone();
    assert_eq!(latest.recall(b"rain", 3, -1, &store), Ok(()));
    assert_eq!(latest.view(), first.view());
    assert_eq!(engine.recall(b"rain", 9, 1001, &store), Ok(()));
    assert_eq!(controls(&engine, 1001)[3], (90, None));
}

/// Names are looked up in the synth's own definition, not in what its name means today.
#[test]
fn a_recall_into_an_old_shape() {
    let mut engine = engine(&[rain()]);
    let turned = definition(b"rain", &[1, 2], &[(b"fade", 0), (b"amp", 1)]);
    done(&mut engine, &Command::Receive(&write(&[turned]).bytes));
    synth(&mut engine, b"rain", 1001);
    let mut store = [0; 100];
    assert_eq!(engine.save(1000, &mut store), Ok(1));
    set(&mut engine, 1000, 0, 50);
    assert_eq!(engine.recall(b"rain", 1, 1001, &store), Ok(()));
    assert_eq!(controls(&engine, 1001), [(6, None), (5, None)]);
    assert_eq!(engine.recall(b"rain", 1, 1000, &store), Ok(()));
    assert_eq!(controls(&engine, 1000), [(5, None), (6, None)]);
}

#[test]
fn versions_are_never_given_again() {
    let engine = engine(&[definition(b"d", &[], &[])]);
    let mut store = [0; 300];
    for version in 1..=3 {
        assert_eq!(engine.save(1000, &mut store), Ok(version));
    }
    for version in [3, 1, 2] {
        assert_eq!(drop_version(b"d", version, &mut store), Ok(()));
    }
    // Tag 4 outlives them all.
    let left = [name(b"d"), highest(3)].concat();
    assert_eq!(store[..left.len()], left);
    assert!(store[left.len()..].iter().all(|&byte| byte == 0));
    assert_eq!(engine.save(1000, &mut store), Ok(4));
    assert_eq!(drop_version(b"d", 4, &mut store), Ok(()));
    assert_eq!(engine.save(1000, &mut store), Ok(5));
    let expected = [name(b"d"), highest(5), version(5)].concat();
    assert_eq!(store[..expected.len()], expected);
    for version in [0, 1, 4, 6] {
        assert_eq!(drop_version(b"d", version, &mut store), refused(32));
    }
}

/// A drop leaves the other names and versions, and zeros behind them.
#[test]
fn a_drop_closes_its_gap() {
    let (front, back) = (
        [name(b"a"), highest(3), version(1), setting(b"x", 1)].concat(),
        [version(3), name(b"b"), highest(1), version(1)].concat(),
    );
    let gone = [version(2), setting(b"y", 2), setting(b"z", 3)].concat();
    let mut store = [&front[..], &gone, &back, b"\0junk"].concat();
    assert_eq!(drop_version(b"a", 2, &mut store), Ok(()));
    let kept = [front, back].concat();
    assert_eq!(store[..kept.len()], kept);
    assert!(store[kept.len()..].iter().all(|&byte| byte == 0));
}

#[test]
fn sixteen_versions_and_the_seventeenth() {
    let mut engine = engine(&[definition(b"d", &[], &[]), definition(b"e", &[], &[])]);
    let mut store = [0; 1000];
    for version in 1..=16 {
        assert_eq!(engine.save(1000, &mut store), Ok(version));
    }
    let full = store;
    assert_eq!(engine.save(1000, &mut store), refused(30));
    assert_eq!(store, full);
    // Another name has its own, and a dropped version makes room.
    assert_eq!(engine.save(1001, &mut store), Ok(1));
    assert_eq!(drop_version(b"d", 7, &mut store), Ok(()));
    assert_eq!(engine.save(1000, &mut store), Ok(17));
    assert_eq!(engine.save(1000, &mut store), refused(30));
    // A store with 17 is none, for every call.
    let mut fields = vec![name(b"d"), highest(20)];
    fields.extend((1..=16).map(version));
    assert!(is_formed(&fields));
    fields.push(version(20));
    let mut store = fields.concat();
    assert_eq!(engine.save(1000, &mut store), refused(31));
    assert_eq!(engine.recall(b"d", 1, 1000, &store), refused(31));
    assert_eq!(drop_version(b"d", 1, &mut store), refused(31));
    assert_eq!(store, fields.concat());
}

#[test]
fn the_last_version_number() {
    let engine = engine(&[definition(b"d", &[], &[]), definition(b"e", &[], &[])]);
    let mut store = [name(b"d"), highest(u32::MAX - 1), vec![0; 60]].concat();
    assert_eq!(engine.save(1000, &mut store), Ok(u32::MAX));
    let before = store.clone();
    assert_eq!(engine.save(1000, &mut store), refused(33));
    assert_eq!(store, before);
    assert_eq!(drop_version(b"d", u32::MAX, &mut store), Ok(()));
    assert_eq!(engine.save(1000, &mut store), refused(33));
    assert_eq!(engine.save(1001, &mut store), Ok(1));
    // 30 comes before.
    let mut fields = vec![name(b"d"), highest(u32::MAX)];
    fields.extend((1..=16).map(version));
    let mut store = [fields.concat(), vec![0; 60]].concat();
    assert_eq!(engine.save(1000, &mut store), refused(30));
}

/// The contents may fill the store to its last byte, without a 0; one byte less is 33, and then nothing is written.
#[test]
fn full_to_the_last_byte_and_one_short() {
    let engine = engine(&[rain()]);
    let first = 7 + 7 + 7 + 10 + 11;
    let later = 7 + 10 + 11;
    for (versions, length) in [(1, first), (2, first + later), (3, first + 2 * later)] {
        let mut store = vec![0; length];
        for version in 1..=versions {
            assert_eq!(engine.save(1000, &mut store), Ok(version));
        }
        assert!(store.last() == Some(&6) && is_formed(&[store.clone()]));
        let before = store.clone();
        assert_eq!(engine.save(1000, &mut store), refused(33));
        assert_eq!(store, before);
        // The room of a dropped version is free.
        assert_eq!(drop_version(b"rain", 1, &mut store), Ok(()));
        assert_eq!(engine.save(1000, &mut store), Ok(versions + 1));
        let mut store = vec![0; length - 1];
        for version in 1..versions {
            assert_eq!(engine.save(1000, &mut store), Ok(version));
        }
        let before = store.clone();
        assert_eq!(engine.save(1000, &mut store), refused(33));
        assert_eq!(store, before);
    }
    // Bytes behind a closing 0 are free, and are zeroed.
    let mut store = vec![0xff; first + 3];
    store[0] = 0;
    assert_eq!(engine.save(1000, &mut store), Ok(1));
    assert_eq!(store[first..], [0; 3]);
}

#[test]
fn a_store_of_no_bytes() {
    let mut engine = engine(&[rain()]);
    assert_eq!(read_store(&[]), Some(vec![]));
    assert_eq!(engine.save(1000, &mut []), refused(33));
    assert_eq!(engine.recall(b"rain", 1, 1000, &[]), refused(32));
    assert_eq!(drop_version(b"rain", 1, &mut []), refused(32));
}

/// save 31, 17, 18, 30, 33; recall 31, 17, 18, 32; drop 31, 32.
#[test]
fn the_order_of_refusals() {
    let mut engine = engine(&[definition(b"d", &[], &[])]);
    let mut bad = [7, 0, 0];
    assert_eq!(engine.save(5, &mut bad), refused(31));
    assert_eq!(engine.recall(b"", 0, 5, &bad), refused(31));
    assert_eq!(drop_version(b"", 0, &mut bad), refused(31));
    let mut fields = vec![name(b"d"), highest(u32::MAX)];
    fields.extend((1..=16).map(version));
    let mut full = fields.concat();
    for node in [5, -2, -8, i32::MIN] {
        assert_eq!(engine.save(node, &mut full), refused(17));
        assert_eq!(engine.recall(b"", 0, node, &full), refused(17));
    }
    for group in [0, 1] {
        assert_eq!(engine.save(group, &mut full), refused(18));
        assert_eq!(engine.recall(b"", 0, group, &full), refused(18));
    }
    assert_eq!(engine.save(1000, &mut full), refused(30));
    for (of, at) in [
        (&b"d"[..], 0),
        (b"d", 17),
        (b"", 1),
        (b"e", 1),
        (b"\xff", 1),
    ] {
        assert_eq!(engine.recall(of, at, 1000, &full), refused(32));
        assert_eq!(drop_version(of, at, &mut full), refused(32));
    }
    assert_eq!(drop_version(b"d", 16, &mut full), Ok(()));
    assert_eq!(engine.save(1000, &mut full), refused(33));
    // -1 is the latest synth while it lives.
    done(&mut engine, &Command::Free(1000));
    assert_eq!(engine.save(-1, &mut full), refused(17));
    assert_eq!(engine.recall(b"d", 1, -1, &full), refused(17));
}

/// A store of one name with one version and one control.
fn example() -> Vec<Vec<u8>> {
    vec![name(b"n"), highest(2), version(2), setting(b"c", 9)]
}

/// The example with another field at some place.
fn with(place: usize, other: Vec<u8>) -> Vec<Vec<u8>> {
    let mut fields = example();
    fields[place] = other;
    fields
}

#[test]
fn what_is_no_store() {
    assert!(is_formed(&example()));
    let longest = vec![b'n'; 255];
    let too_long = vec![b'n'; 256];
    // A tag above 4, anywhere.
    for tag in [5, 6, 127, 128, 255] {
        for place in 0..=4 {
            let mut fields = example();
            fields.insert(place, field(tag, b""));
            assert!(!is_formed(&fields), "tag {tag} at {place}");
        }
    }
    // Tag 4 missing, twice, behind a tag 2; a tag 2 before it; a tag 3 without a version.
    let [name_, highest_, version_, setting_]: [Vec<u8>; 4] =
        example().try_into().expect("they are four");
    assert!(!is_formed(&[name_.clone()]));
    assert!(!is_formed(&[name_.clone(), version_.clone()]));
    for order in [
        [&name_, &version_, &highest_, &setting_],
        [&name_, &highest_, &highest_, &version_],
        [&name_, &highest_, &version_, &highest_],
        [&name_, &highest_, &setting_, &version_],
        [&name_, &setting_, &highest_, &version_],
        [&highest_, &version_, &setting_, &name_],
        [&version_, &name_, &highest_, &setting_],
        [&setting_, &name_, &highest_, &version_],
        [&name_, &name_, &highest_, &version_],
    ] {
        assert!(!is_formed(&order.map(Clone::clone)));
    }
    for tag in [highest_, version_, setting_] {
        assert!(!is_formed(&[tag]), "without a name");
    }
    // A tag 2 or 4 not of four bytes, a tag 3 under four.
    for length in [0, 1, 2, 3, 5, 8] {
        assert!(!is_formed(&with(1, field(4, &vec![1; length]))));
        assert!(!is_formed(&with(2, field(2, &vec![1; length]))));
        assert_eq!(is_formed(&with(3, field(3, &vec![1; length]))), length >= 4);
    }
    // Names: empty, too long, bytes outside 1 to 127.
    assert!(!is_formed(&with(0, name(b""))));
    assert!(is_formed(&with(0, name(&longest))));
    assert!(!is_formed(&with(0, name(&too_long))));
    assert!(is_formed(&with(3, setting(&longest, 1))));
    assert!(!is_formed(&with(3, setting(&too_long, 1))));
    for byte in 0..=255 {
        let right = (1..=127).contains(&byte);
        assert_eq!(is_formed(&with(0, name(&[b'a', byte, b'b']))), right);
        assert_eq!(is_formed(&with(3, setting(&[b'a', byte], 1))), right);
    }
    // Versions that don't rise; 0; above tag 4.
    let versions = |list: &[u32], most: u32| {
        let mut fields = vec![name(b"n"), highest(most)];
        fields.extend(list.iter().map(|&at| version(at)));
        is_formed(&fields)
    };
    assert!(versions(&[1, 2, 3], 3) && versions(&[1, 5, u32::MAX], u32::MAX));
    assert!(!versions(&[1, 1], 3) && !versions(&[2, 1], 3) && !versions(&[1, 3, 2], 3));
    assert!(!versions(&[0], 3) && !versions(&[0, 1], 3) && !versions(&[], 0) && !versions(&[1], 0));
    assert!(!versions(&[4], 3) && !versions(&[1, u32::MAX], u32::MAX - 1));
    // Over 16 versions.
    let rising: Vec<u32> = (1..=17).collect();
    assert!(versions(&rising[..16], 17) && !versions(&rising, 17));
    // A name twice, also behind others; a control twice in a version.
    let again = [example(), vec![name(b"m"), highest(1)], example()].concat();
    assert!(!is_formed(&again));
    let twice = [example(), vec![setting(b"d", 1), setting(b"c", 9)]].concat();
    assert!(!is_formed(&twice));
    let empty = vec![
        name(b"n"),
        highest(1),
        version(1),
        setting(b"", 1),
        setting(b"", 2),
    ];
    assert!(!is_formed(&empty));
}

/// A store cut anywhere but between fields is none, and so is one with a length that runs past its end.
#[test]
fn fields_past_the_end() {
    let fields = example();
    let whole = fields.concat();
    let ends = [0, 11, 18, 26];
    // Behind its name alone an entry lacks its tag 4.
    for length in 0..=whole.len() {
        let formed = read_store(&whole[..length]).is_some();
        assert_eq!(formed, ends.contains(&length), "{length}");
    }
    assert_eq!(whole.len(), 26);
    for place in [2, 6, 13, 20] {
        let mut store = whole.clone();
        store[place] += 30;
        assert_eq!(read_store(&store), None, "length at {place}");
        store[place - 1] = 0xff;
        assert_eq!(read_store(&store), None, "length at {place}");
    }
    // A head alone, with one byte of its length, and with both.
    for tag in 1..=255 {
        for rest in [&[][..], &[0], &[0, 1]] {
            assert_eq!(read_store(&[&[tag], rest].concat()), None);
        }
    }
}

#[test]
fn what_is_a_store_nonetheless() {
    // A name with no version, a version with no tag 3, an empty control name.
    assert!(is_formed(&[name(b"n"), highest(1)]));
    assert!(is_formed(&[name(b"n"), highest(1), version(1)]));
    assert!(is_formed(&with(3, setting(b"", 9))));
    // More than 32 tag 3s.
    let many = (0..200).map(|at| setting(format!("c{at}").as_bytes(), at));
    let many: Vec<Vec<u8>> = example().into_iter().chain(many).collect();
    assert!(is_formed(&many));
    // Gaps in versions, and below tag 4.
    let gaps = [name(b"n"), highest(u32::MAX), version(3), version(70_000)];
    assert!(is_formed(&gaps));
    // Names and tag 3s in any order; the same control in two versions and under two names.
    let out_of_order = [
        vec![name(b"z"), highest(2), version(1)],
        vec![
            setting(b"b", 1),
            setting(b"a", 2),
            version(2),
            setting(b"a", 3),
        ],
        vec![name(b"a"), highest(1), version(1), setting(b"a", 4)],
    ];
    assert!(is_formed(&out_of_order.concat()));
    // No bytes, a 0 alone, anything behind a closing 0.
    for bytes in [&b""[..], b"\0", b"\0\0\0", b"\0\x05", b"\0\xff\xff\xff\xff"] {
        assert_eq!(read_store(bytes), Some(vec![]));
    }
    let closed = [example().concat(), b"\0\x01\0".to_vec()].concat();
    assert_eq!(read_store(&closed), read_store(&example().concat()));
}

/// Names out of order stay where they stand, and so does what is saved under them.
#[test]
fn an_order_of_its_own_stays() {
    let engine = engine(&[rain()]);
    let before = [
        name(b"z"),
        highest(9),
        version(4),
        setting(b"q", 1),
        setting(b"b", 2),
    ]
    .concat();
    let rained = [
        name(b"rain"),
        highest(6),
        version(5),
        setting(b"fade", 1),
        setting(b"amp", 2),
    ];
    let behind = [name(b"a"), highest(1)].concat();
    let mut store = [&before[..], &rained.concat(), &behind].concat();
    store.resize(200, 0);
    assert_eq!(engine.save(1000, &mut store), Ok(7));
    let mut saved = rained.to_vec();
    saved[1] = highest(7);
    saved.extend([version(7), setting(b"amp", 5), setting(b"fade", 6)]);
    let expected = [&before[..], &saved.concat(), &behind].concat();
    assert_eq!(store[..expected.len()], expected);
    assert!(store[expected.len()..].iter().all(|&byte| byte == 0));
}

/// Reading a writing gives the entries back.
#[test]
fn written_and_read_back() {
    let entries = vec![
        Named {
            name: b"z".to_vec(),
            highest: 5,
            versions: vec![Saved {
                version: 4,
                settings: vec![Setting {
                    name: vec![],
                    value: 0x7fc0_0001,
                }],
            }],
        },
        Named {
            name: vec![127; 255],
            highest: u32::MAX,
            versions: vec![],
        },
    ];
    let bytes = contents(&entries);
    assert_eq!(bytes.len(), 7 - 3 + 7 + 7 + 7 + 258 + 7);
    assert_eq!(read_store(&bytes), Some(entries));
}

/// A recall is in no list, has no message, and is none of the commands that need no store.
#[test]
fn a_recall_among_commands() {
    use independent::{write_message, Call, RECALL};
    let mut engine = engine(&[rain()]);
    let call = Call::new(RECALL, [-1, 1000, 0, 0, 0], b"rain");
    let recall = Command::of(call.op, call.numbers, &call.bytes);
    let recall = recall.expect("it is one");
    let expected = Command::Recall {
        definition: b"rain",
        version: u32::MAX,
        node: 1000,
    };
    assert_eq!(recall, expected);
    assert_eq!(Call::of(&recall), call);
    assert_eq!(call.command(), None);
    let listed = engine.list(&[recall], |_, _| {});
    assert_eq!(listed.packed(), 34);
    assert_eq!(write_message(&recall, &mut [0; 100]), refused(27));
    for name in [&b"\0"[..], b"rain\x80", b"\xff"] {
        let recall = Command::of(RECALL, call.numbers, name).expect("it is one");
        assert_eq!(write_message(&recall, &mut []), refused(26));
    }
}
