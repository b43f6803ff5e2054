//! A name covers an array: how far a fill by name goes, on synths and on groups.
//!
//! By hand from the paper first, then on random definitions against the independent engine. The random
//! part also works out each answer and each control by itself, from the definitions' entries.

mod common;

use common::desk::{definition, Desk};
use common::pair::Pair;
use common::sequences;
use common::shapes::{covered, shaped, NAMES};
use common::tally::{check, Tally};
use independent::{layout, write, Call, Definition, Random};
use std::collections::BTreeSet;

/// "amps" is at 0 and covers up to 3, and "pan" is at 4.
fn mixer() -> Definition {
    let mut mixer = definition("mixer", &["amps"], &[10, 11, 12, 13, 14]);
    mixer.parameters.push((b"pan".to_vec(), 4));
    mixer
}

/// Group 1 holds a mixer, 1000, and 1001, which has no "amps".
fn with_mixer() -> Desk {
    let mut desk = Desk::with(&[mixer(), definition("ping", &["freq"], &[440])]);
    desk.group(1, 0);
    desk.synth("mixer", 1000, 1);
    desk.synth("ping", 1001, 1);
    desk
}

#[test]
fn amps_and_pan() {
    let mut desk = with_mixer();
    let fill = |node, count, pattern| [node, 0, count, 0, pattern];
    desk.refused(28, 16, fill(1000, 5, 7), b"amps");
    desk.done(16, fill(1000, 4, 7), b"amps");
    assert_eq!(desk.read_all(1000, 5), [7, 7, 7, 7, 14]);
    desk.done(16, fill(1, 5, 8), b"amps");
    assert_eq!(desk.read_all(1000, 5), [8, 8, 8, 8, 14]);
    assert_eq!(desk.read_all(1001, 1), [440]);
    // As many as there can be, and fewer than it covers.
    desk.done(16, fill(0, i32::MAX, 9), b"amps");
    assert_eq!(desk.read_all(1000, 5), [9, 9, 9, 9, 14]);
    desk.done(16, fill(1, 3, 6), b"amps");
    desk.done(16, fill(1000, 1, 5), b"amps");
    desk.done(16, fill(1000, 0, 1), b"amps");
    assert_eq!(desk.read_all(1000, 5), [5, 6, 6, 9, 14]);
    // "pan" covers one, and from there on 21 comes first.
    desk.done(16, fill(1000, 1, 4), b"pan");
    desk.refused(21, 16, fill(1000, 2, 4), b"pan");
    desk.done(16, fill(1, 2, 3), b"pan");
    assert_eq!(desk.read_all(1000, 5), [5, 6, 6, 9, 3]);
}

#[test]
fn by_index_nothing_changes() {
    let mut desk = with_mixer();
    desk.done(15, [1000, 0, 5, 0, 7], b"amps");
    assert_eq!(desk.read_all(1000, 5), [7; 5]);
    desk.refused(21, 15, [1000, 0, 6, 0, 7], b"");
    desk.done(15, [1, 1, 5, 0, 8], b"");
    assert_eq!(desk.read_all(1000, 5), [7, 8, 8, 8, 8]);
    assert_eq!(desk.read_all(1001, 1), [440]);
}

/// 17, 23, 21 and then 28.
#[test]
fn the_order_of_refusals() {
    let mut desk = with_mixer();
    let big = 16_777_217;
    desk.refused(17, 16, [7, 0, 5, 1, big], b"amps");
    desk.refused(23, 16, [1000, 0, 5, 1, big], b"amps");
    desk.refused(23, 16, [1, 0, 5, 1, big], b"amps");
    desk.refused(21, 16, [1000, 0, 6, 1, 1], b"amps");
    desk.refused(21, 16, [1000, 0, i32::MAX, 1, 1], b"amps");
    desk.refused(21, 16, [1000, 0, -1, 1, 1], b"amps");
    desk.refused(21, 16, [1000, 0, 5, 1, 1], b"amp");
    desk.refused(28, 16, [1000, 0, 5, 1, 1], b"amps");
    desk.refused(28, 16, [1000, 0, 5, 0, 7], b"amps");
}

/// Sets, maps and reads by name mean the first control alone.
#[test]
fn one_control_by_name() {
    let mut desk = with_mixer();
    desk.set(1000, "amps", 7);
    desk.done(19, [9, 0, 0, 0, 99], b"");
    desk.done(18, [1, 0, 9, 0, 0], b"pan");
    assert_eq!(desk.read_all(1000, 5), [7, 11, 12, 13, 99]);
    assert_eq!(desk.read_named(1000, "amps"), 7);
    assert_eq!(desk.read_named(1000, "pan"), 99);
}

const SEQUENCES: usize = 40;
const LENGTH: usize = 700;

/// Counts that are tried, for a tally of synths and one of groups.
const COUNTS: [[&str; 2]; 7] = [
    ["the width less one, synths", "the width less one, groups"],
    ["the width, synths", "the width, groups"],
    ["the width and one, synths", "the width and one, groups"],
    ["up to P, synths", "up to P, groups"],
    ["one past P, synths", "one past P, groups"],
    ["P, synths", "P, groups"],
    ["P and one, synths", "P and one, groups"],
];

#[test]
fn fills_agree() {
    let tallies = sequences(SEQUENCES, LENGTH, Stage::new, Stage::turn, |stage| {
        stage.tally
    });
    for ways in COUNTS {
        check(&tallies, &ways.map(|way| (way, 500)));
    }
    check(
        &tallies,
        &[
            ("definitions with gaps between names", 1000),
            ("definitions with a name twice", 1000),
            ("definitions with two names on one index", 1000),
            ("definitions with names out of index order", 1000),
            ("definitions with no name on index 0", 1000),
            ("refused with 28", 500),
            ("refused with 21 and past the width", 500),
            ("synths filled less far than asked", 1000),
            ("fills by index past a name", 100),
        ],
    );
}

/// Both engines with a synth of each definition, and what their controls hold. Group 1 has all of them,
/// every other one in group 2.
struct Stage {
    random: Random,
    pair: Pair,
    definitions: Vec<Definition>,
    own: Vec<Vec<u32>>,
    tally: Tally,
}

const DEFINITIONS: usize = 8;

/// The number of a definition's synth.
fn synth(at: usize) -> i32 {
    10 + at as i32
}

/// The group that a definition's synth is in.
fn group(at: usize) -> i32 {
    1 + (at % 2) as i32
}

impl Stage {
    fn new(mut random: Random) -> Stage {
        let mut stage = Stage {
            pair: Pair::fresh(&mut random),
            random,
            definitions: Vec::new(),
            own: Vec::new(),
            tally: Tally::default(),
        };
        stage.begin().expect("the stage is set");
        stage
    }

    /// Starts anew with other definitions.
    fn begin(&mut self) -> Result<(), String> {
        self.pair.renew();
        let random = &mut self.random;
        self.definitions = (0..DEFINITIONS).map(|at| shaped(random, at)).collect();
        let initial = self.definitions.iter().map(|one| one.initial.clone());
        self.own = initial.collect();
        for definition in &self.definitions {
            count_kind(definition, &mut self.tally);
        }
        let file = write(&self.definitions).bytes;
        let mut calls = vec![
            Call::new(1, [0; 5], &file),
            Call::new(4, [1, 1, 0, 0, 0], b""),
            Call::new(4, [2, 1, 1, 0, 0], b""),
        ];
        for (at, definition) in self.definitions.iter().enumerate() {
            let numbers = [synth(at), 1, group(at), 0, 0];
            calls.push(Call::new(3, numbers, &definition.name));
        }
        for call in calls {
            self.pair.expect(0, &call, random)?;
        }
        if random.below(2) == 0 {
            self.pair.shuffle(random);
        }
        Ok(())
    }

    /// A fill from one of a definition's names on, or from its index on; of its synth or of a group.
    fn turn(&mut self) -> Result<(), String> {
        if self.random.below(25) == 0 {
            return self.begin();
        }
        let at = self.random.below(DEFINITIONS);
        let definition = &self.definitions[at];
        let entries = &definition.parameters;
        let name = match self.random.below(8) {
            0 => self.random.one_of(&NAMES).to_vec(),
            _ if entries.is_empty() => return Ok(()),
            _ => entries[self.random.below(entries.len())].0.clone(),
        };
        let (index, width) = covered(definition, &name).unwrap_or((0, 1));
        let controls = definition.initial.len() as i32;
        let rest = controls - index;
        let way = self.random.below(COUNTS.len());
        let counts = [
            width - 1,
            width,
            width + 1,
            rest,
            rest + 1,
            controls,
            controls + 1,
        ];
        let fill = Fill {
            by_name: self.random.below(4) > 0,
            name,
            index,
            count: counts[way],
            pattern: self.random.bits() as u32,
        };
        let on_group = self.random.below(2) == 0;
        let node = match on_group {
            true => self.random.one_of(&[0, 1, 2]),
            false => synth(at),
        };
        let answer = match on_group {
            true => 0,
            false => fill.answer(definition),
        };
        self.pair
            .expect(answer, &fill.call(node), &mut self.random)?;
        self.tally
            .count(COUNTS[way][usize::from(on_group)], fill.by_name);
        self.tally.count("refused with 28", answer == 28);
        let both = answer == 21 && fill.by_name && fill.count > width;
        self.tally.count("refused with 21 and past the width", both);
        let past = !fill.by_name && fill.count > width && answer == 0;
        self.tally.count("fills by index past a name", past);
        if answer == 0 {
            self.fill(&fill, node);
        }
        self.compare()
    }

    /// Fills what is known of the controls.
    fn fill(&mut self, fill: &Fill, node: i32) {
        for (at, definition) in self.definitions.iter().enumerate() {
            let reached = node < 2 || node == group(at) || node == synth(at);
            let Some((first, most)) = fill.most(definition).filter(|_| reached) else {
                continue;
            };
            let cut = fill.by_name && fill.count > most;
            self.tally.count("synths filled less far than asked", cut);
            let own = &mut self.own[at];
            let end = (first + fill.count.min(most)).min(own.len() as i32);
            for index in first..end {
                own[index as usize] = fill.pattern;
            }
        }
    }

    /// The controls are what is known of them.
    fn compare(&self) -> Result<(), String> {
        let view = layout::view(&self.pair.words, &self.pair.arena);
        for (at, known) in self.own.iter().enumerate() {
            let number = synth(at);
            let node = view.nodes.iter().find(|node| node.number == number);
            let synth = node.and_then(|node| node.synth.as_ref());
            let controls = &synth.ok_or("a synth is gone")?.controls;
            let own: Vec<u32> = controls.iter().map(|control| control.own).collect();
            if own != *known {
                return Err(format!("{number} holds {own:?}, by the paper {known:?}"));
            }
        }
        Ok(())
    }
}

struct Fill {
    by_name: bool,
    name: Vec<u8>,
    index: i32,
    count: i32,
    pattern: u32,
}

impl Fill {
    fn call(&self, node: i32) -> Call {
        let op = if self.by_name { 16 } else { 15 };
        let numbers = [node, self.index, self.count, 0, self.pattern as i32];
        Call::new(op, numbers, &self.name)
    }

    /// The first control in a definition, and how many it can fill there at most.
    fn most(&self, definition: &Definition) -> Option<(i32, i32)> {
        match self.by_name {
            true => covered(definition, &self.name),
            false => Some((self.index, i32::MAX - self.index)),
        }
    }

    /// The answer on a synth.
    fn answer(&self, definition: &Definition) -> u32 {
        let controls = definition.initial.len() as i32;
        match self.most(definition) {
            Some((first, _)) if first + self.count > controls => 21,
            Some((_, most)) if self.count > most => 28,
            Some(_) => 0,
            None => 21,
        }
    }
}

/// Counts a definition by how its names stand.
fn count_kind(definition: &Definition, tally: &mut Tally) {
    let entries = &definition.parameters;
    let indices: Vec<i32> = entries.iter().map(|entry| entry.1).collect();
    let named: BTreeSet<i32> = indices.iter().copied().collect();
    let names: BTreeSet<&[u8]> = entries.iter().map(|entry| entry.0.as_slice()).collect();
    let gaps = named.iter().zip(named.iter().skip(1));
    tally.count(
        "definitions with gaps between names",
        gaps.clone().any(|(one, next)| next - one > 1),
    );
    tally.count("definitions with a name twice", names.len() < entries.len());
    tally.count(
        "definitions with two names on one index",
        named.len() < entries.len(),
    );
    tally.count(
        "definitions with names out of index order",
        !indices.is_sorted(),
    );
    let first = named.first();
    tally.count(
        "definitions with no name on index 0",
        first.is_some_and(|first| *first > 0),
    );
}
