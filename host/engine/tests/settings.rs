//! Saved settings: the proved calls against the independent ones, on stores of every kind. Answers and whole stores are compared, and every
//! word and byte of the state.

mod common;
#[path = "settings/stage.rs"]
mod stage;

use common::damage::{hurt, reach};
use common::desk::{definition, Desk};
use common::settings::drop_both;
use common::stores::{self, DAMAGE};
use common::tally::{check, Tally};
use common::{seed, sequences, spread};
use engine::settings::{self, RECALL};
use engine::{Refused, UNKNOWN};
use independent::layout::{ARENA, WORDS};
use independent::{lend_list, read_store, Call, Command, Random};
use stage::{count, Stage, DROPS, RECALLS, SAVES};

/// So many of each answer at least, but for 1, which only damaged states give.
fn wanted(answers: &[(&'static str, u32)], least: usize) -> Vec<(&'static str, usize)> {
    let answers = answers.iter().filter(|(_, number)| *number != 1);
    answers.map(|(what, _)| (*what, least)).collect()
}

#[test]
fn stores_of_every_kind() {
    let tallies = sequences(100, 2200, Stage::new, Stage::turn, |stage| {
        stage.pair.compare_views().expect("both hold the same");
        stage.tally
    });
    check(
        &tallies,
        &[
            ("stores", 200_000),
            ("well-formed stores", 50_000),
            ("damaged, and well formed nonetheless", 300),
            ("cut stores", 5_000),
            ("stores with another byte", 5_000),
            ("stores of 0 to 40 bytes", 15_000),
            ("anything behind the closing 0", 20_000),
            ("full to the last byte", 2_000),
            ("one byte short", 2_000),
            ("saves as the last version", 100),
            ("saves as the 16th version", 200),
            ("saves among names out of order", 1_000),
            ("recalls beside their sets by name", 3_000),
            ("recalls of more than 32 settings", 20),
        ],
    );
    check(&tallies, &DAMAGE.map(|way| (way, 500)));
    check(&tallies, &wanted(&SAVES, 1_000));
    check(&tallies, &wanted(&RECALLS, 1_000));
    check(&tallies, &wanted(&DROPS, 1_000));
}

/// Every store of up to three bytes, and every change of one byte of a store with each kind of field.
#[test]
fn every_short_store() {
    let seed = seed();
    let stage = Stage::new(Random::new(seed));
    let entries = stores::entries(&mut Random::new(5), &stage.names());
    assert!(entries.iter().any(|entry| !entry.versions.is_empty()));
    let front = b"\x01\0\x01a\x04\0\x04\0\0\0\x03\x02\0\x04\0\0\0\x02\x03\0\x05b\0\0\0\x07\x03\0\x04\0\0\0\x08";
    let tallies = spread(256, |first| {
        let mut pair = stage.pair.clone();
        let mut tally = Tally::default();
        let mut compare = |store: &mut [u8]| {
            let before = store.to_vec();
            let saved = pair.save(10, store);
            let dropped = drop_both(b"a", 2, store);
            let recalled = pair.recall(b"a", 2, 10, &before);
            if let Err(what) = saved
                .map(drop)
                .and(dropped.map(drop))
                .and(recalled.map(drop))
            {
                panic!("LIMUDVEK_SEED={seed}: {what}: {before:02x?}");
            }
            tally.add("stores", 1);
        };
        let first = first as u8;
        compare(&mut [first]);
        for second in [0, 1, 2, 3, 4, 5, 128, 255] {
            compare(&mut [first, second]);
            for third in [0, 1, 2, 3, 4, 5, 128, 255] {
                compare(&mut [first, second, third]);
                compare(&mut [first, second, third, first]);
            }
        }
        for place in 0..front.len() {
            let mut store = front.to_vec();
            store[place] = first;
            compare(&mut store);
            store.resize(400, 0);
            store[..front.len()].copy_from_slice(front);
            store[place] = first;
            compare(&mut store);
        }
        tally
    });
    check(&tallies, &[("stores", 40_000)]);
}

/// Saves, drops and recalls on one store after the other, as a show makes them: each version is one more than the highest ever given under
/// that name.
struct Show {
    stage: Stage,
    store: Vec<u8>,
    /// The highest version of each name, by hand.
    given: Vec<(Vec<u8>, u32)>,
}

impl Show {
    fn new(mut random: Random) -> Show {
        let length = random.one_of(&[300, 2_000, 8_000, 65_536]);
        Show {
            store: vec![0; length],
            given: Vec::new(),
            stage: Stage::new(random),
        }
    }

    fn turn(&mut self) -> Result<(), String> {
        let stage = &mut self.stage;
        let entries = read_store(&self.store).ok_or("the store is not well formed")?;
        let (name, version) = stage.version(&entries);
        let node = stage.node();
        match stage.random.below(8) {
            0..=3 => {
                let before = self.store.clone();
                let answer = stage.pair.save(node, &mut self.store)?;
                count(&mut stage.tally, &SAVES, (answer % 256) as u32);
                if answer % 256 == 0 {
                    return self.given((answer / 256) as u32, &before);
                }
            }
            4..=5 => {
                let answer = drop_both(&name, version, &mut self.store)?;
                count(&mut stage.tally, &DROPS, answer);
            }
            6 => {
                let answer = stage.pair.recall(&name, version, node, &self.store)?;
                count(&mut stage.tally, &RECALLS, answer);
            }
            _ => stage.command()?,
        }
        Ok(())
    }

    /// A version was given: the name is the one whose entry is another.
    fn given(&mut self, version: u32, before: &[u8]) -> Result<(), String> {
        let before = read_store(before).unwrap_or_default();
        let after = read_store(&self.store).unwrap_or_default();
        let new = after.iter().find(|entry| !before.contains(entry));
        let name = &new.ok_or("no entry is another")?.name;
        let place = self.given.iter().position(|(given, _)| given == name);
        let place = place.unwrap_or_else(|| {
            self.given.push((name.clone(), 0));
            self.given.len() - 1
        });
        self.given[place].1 += 1;
        // Names stand by first save.
        let names = after.iter().map(|entry| &entry.name);
        let by_first = self.given.iter().map(|(name, _)| name);
        let highest = self.given[place].1;
        if version != highest || !names.eq(by_first) {
            return Err(format!("version {version}, expected {highest}"));
        }
        Ok(())
    }
}

#[test]
fn versions_over_a_show() {
    let tallies = sequences(60, 600, Show::new, Show::turn, |show| show.stage.tally);
    check(
        &tallies,
        &[
            ("saves accepted", 5_000),
            ("saves refused with 30", 100),
            ("saves refused with 33", 100),
            ("drops accepted", 3_000),
            ("recalls accepted", 1_000),
        ],
    );
}

/// On a damaged state save and recall are refused with 1 where the checker finds a rule broken, before 31 and all else; a drop takes no state.
#[test]
fn damaged_states() {
    let seed = seed();
    let tallies = spread(100, |place| {
        let mut random = Random::new(seed.wrapping_add((place as u64) << 32));
        let (pair, commands) = reach(&mut random, place);
        let (words, arena) = (pair.words.clone(), pair.arena.clone());
        let mut stage = Stage {
            random,
            commands,
            pair,
            tally: Tally::default(),
        };
        for _ in 0..60 {
            let (store, entries) = stage.store();
            let (name, version) = stage.version(&entries);
            let node = stage.node();
            let times = stage.random.one_of(&[1, 1, 2]);
            let Stage { random, pair, .. } = &mut stage;
            hurt(times, random, &mut pair.words, &mut pair.arena);
            let formed = stage.pair.adopt();
            let tried = if formed {
                let mut after = store.clone();
                let recalled = stage.pair.recall(&name, version, node, &store);
                recalled.and(stage.pair.save(node, &mut after).map(|_| 0))
            } else {
                let refused = stage.pair.refuse_settings(&name, version, node, &store);
                refused.map(|_| 0)
            };
            if let Err(what) = tried {
                panic!("LIMUDVEK_SEED={seed}, state {place}: {what}: {node}, {store:02x?}");
            }
            let bad_store = read_store(&store).is_none();
            stage.tally.count("refused with 1", !formed);
            stage
                .tally
                .count("refused with 1 and not with 31", !formed && bad_store);
            stage.tally.count("still well formed", formed);
            stage.pair.words.copy_from_slice(&words);
            stage.pair.arena.copy_from_slice(&arena);
            assert!(stage.pair.adopt());
        }
        stage.tally
    });
    check(
        &tallies,
        &[
            ("refused with 1", 2_000),
            ("refused with 1 and not with 31", 500),
            ("still well formed", 1_000),
        ],
    );
}

/// Runs of other lengths are refused with 1, and a store of any length is one.
#[test]
fn wrong_sizes() {
    let mut desk = Desk::with(&[definition("rain", &["amp"], &[7])]);
    desk.synth("rain", 1000, 0);
    let (words, arena) = (desk.0.words(), desk.0.arena());
    let lengths = |right: usize| [0, 1, right - 1, right, right + 1, 2 * right];
    for words_length in lengths(WORDS) {
        for arena_length in lengths(ARENA) {
            let (mut words, mut arena) = (words.to_vec(), arena.to_vec());
            words.resize(words_length, 0);
            arena.resize(arena_length, 0);
            let right = (words_length, arena_length) == (WORDS, ARENA);
            let mut store = [0; 40];
            let saved = settings::save(1000, &words, &arena, &mut store);
            assert_eq!(saved, if right { 256 } else { 1 });
            let recalled = settings::recall(b"rain", 1, 1000, &store, &mut words, &arena);
            assert_eq!(recalled, u32::from(!right));
            // 1 comes before 31.
            let recalled = settings::recall(b"rain", 1, 1000, &[9], &mut words, &arena);
            assert_eq!(recalled, if right { 31 } else { 1 });
        }
    }
}

/// The kind of a recall is none of `engine_apply`, not even on a broken state; goes in no list; and has no message.
#[test]
fn a_recall_among_commands() {
    let mut desk = Desk::with(&[definition("rain", &["amp"], &[7])]);
    desk.synth("rain", 1000, 0);
    let (mut words, mut arena) = (desk.0.words().to_vec(), desk.0.arena().to_vec());
    let before = (words.clone(), arena.clone());
    let recall = Call::new(RECALL, [1, 1000, 0, 0, 0], b"rain");
    let set = Call::new(14, [1000, 0, 0, 0, 9], b"amp");
    for (numbers, bytes) in [([1, 1000, 0, 0, 0], &b"rain"[..]), ([u32::MAX; 5], b"\xff")] {
        let (words, arena) = (&mut words, &mut arena);
        let answer = engine::apply(RECALL, numbers, bytes, words, arena, &mut []);
        assert_eq!(answer, UNKNOWN);
    }
    // Anywhere in a list, also behind one that would be refused; 255 and 1 come before.
    let unknown = Call::new(29, [0; 5], b"");
    let missing = Call::new(5, [7, 0, 0, 0, 0], b"");
    for (calls, expected) in [
        (vec![recall.clone()], 34),
        (vec![set.clone(), recall.clone()], 34),
        (vec![missing, recall.clone(), set.clone()], 34),
        (vec![recall.clone(); 513], 34),
        (vec![recall.clone(), unknown], UNKNOWN),
    ] {
        let (items, bytes) = lend_list(&calls);
        let answer = engine::list(&items, &bytes, &mut words, &mut arena);
        assert_eq!(answer, expected);
        let mut broken = words.clone();
        broken[0] = 0;
        let answer = engine::list(&items, &bytes, &mut broken, &mut arena);
        assert_eq!(answer, if expected == 34 { 1 } else { UNKNOWN });
    }
    let (mut items, bytes) = lend_list(&[recall]);
    items[11] = 1;
    assert_eq!(
        engine::list(&items, &bytes, &mut words, &mut arena),
        UNKNOWN
    );
    let apart = Command::of(RECALL, [u32::MAX, 3, 4, 5, 6], b"rain");
    assert!(apart.is_some_and(|command| command.needs_store()));
    let mut out = [7; 100];
    for (name, expected) in [
        (&b"rain"[..], 27),
        (b"", 27),
        (b"\x01\x7f", 27),
        (&[b'n'; 300], 27),
        (b"rain\0", 26),
        (b"\x80", 26),
    ] {
        for mark in [0, 2, u32::MAX] {
            let numbers = [1, 1000, 0, mark, 0];
            assert_eq!(
                engine::write_message(RECALL, numbers, name, &mut out),
                expected
            );
            assert_eq!(
                engine::write_message(RECALL, numbers, name, &mut []),
                expected
            );
        }
    }
    assert_eq!(out, [7; 100]);
    assert!(before == (words, arena));
}

/// By hand, by the wrapper: a save before the interval, and a recall into a reloaded definition.
#[test]
fn an_evening_by_the_wrapper() {
    let rain = |controls: [&str; 2], values: [u32; 2]| definition("rain", &controls, &values);
    let mut desk = Desk::with(&[rain(["amp", "fade"], [1, 2])]);
    desk.synth("rain", 1000, 0);
    desk.group(1, 0);
    desk.set(1000, "amp", 0x3f00_0000);
    desk.done(17, [1000, 0, 5, 0, 0], b"");
    desk.done(19, [5, 0, 0, 0, 77], b"");
    let refused = |number| Refused { number, place: 0 };
    // Its own float, behind the bus that it follows.
    let mut store = [0; 66];
    assert_eq!(desk.0.save(1000, &mut store), Ok(1));
    assert_eq!(store[24..31], *b"amp\x3f\0\0\0");
    desk.load(&[rain(["fade", "amp"], [3, 4])]);
    desk.synth("rain", 1001, 0);
    assert_eq!(desk.0.recall(b"rain", 1, 1001, &store), Ok(()));
    assert_eq!(desk.read_all(1001, 2), [2, 0x3f00_0000]);
    assert_eq!(desk.0.save(1001, &mut store), Err(refused(33)));
    assert_eq!(settings::drop_version(b"rain", 1, &mut store), 0);
    assert_eq!(desk.0.save(1001, &mut store), Ok(2));
    assert_eq!(desk.0.recall(b"rain", 1, 1001, &store), Err(refused(32)));
    assert_eq!(desk.0.recall(b"rain", 2, 1, &store), Err(refused(18)));
    assert_eq!(desk.0.recall(b"rain", 2, 7, &store), Err(refused(17)));
    assert_eq!(desk.0.save(-8, &mut store), Err(refused(17)));
    store[0] = 7;
    assert_eq!(desk.0.save(-1, &mut store), Err(refused(31)));
    assert_eq!(settings::drop_version(b"rain", 2, &mut store), 31);
}
