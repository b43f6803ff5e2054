//! Controls and buses: sets, fills and maps, of synths and of groups, and what is read.
//!
//! By hand from the paper first, then at random against the independent engine. The random part also
//! works out each answer by itself, from the paper's bounds in wide numbers.

mod common;

use common::desk::{definition, float, Desk};
use common::pair::Pair;
use common::sequences;
use common::shapes::{covered, numbered, shaped, sized, NAMES};
use common::tally::{check, Tally};
use independent::engine::BUSES;
use independent::{write, Call, Definition, Random, MOST_PARAMETERS};

/// Numbers at the ends of what an index or a count can be.
const ENDS: [i32; 16] = [
    i32::MIN,
    i32::MIN + 1,
    -4096,
    -33,
    -2,
    -1,
    0,
    1,
    2,
    3,
    31,
    32,
    33,
    4096,
    i32::MAX - 1,
    i32::MAX,
];

#[test]
fn fills_across_the_ends_of_a_synth() {
    for controls in [0, 1, 3, 31, 32] {
        let mut desk = Desk::with(&[sized("sized", controls)]);
        desk.group(1, 0);
        for start in ENDS {
            for count in ENDS {
                desk.synth("sized", 1000, 1);
                let (first, end) = (i64::from(start), i64::from(start) + i64::from(count));
                let numbers = |node| [node, start, count, 0, 7];
                // By name, from each end.
                if let Some(name) = numbered(controls).get(start.max(0) as usize) {
                    let fits = start >= 0 && count >= 0 && end <= controls as i64;
                    if fits && count <= 1 {
                        desk.done(16, numbers(1000), name.as_bytes());
                    } else if fits {
                        // Each name covers one.
                        desk.refused(28, 16, numbers(1000), name.as_bytes());
                    } else if start >= 0 {
                        desk.refused(21, 16, numbers(1000), name.as_bytes());
                    }
                }
                desk.refused(21, 16, numbers(1000), b"no such control");
                desk.done(5, [1000, 0, 0, 0, 0], b"");
                desk.synth("sized", 1000, 1);
                let fits = start >= 0 && count >= 0 && end <= controls as i64;
                if fits {
                    desk.done(15, numbers(1000), b"");
                } else {
                    desk.refused(21, 15, numbers(1000), b"");
                }
                // The group takes what there is.
                let reaches = start >= 0 && count >= 0;
                if reaches {
                    desk.done(15, numbers(1), b"");
                } else {
                    desk.refused(21, 15, numbers(1), b"");
                }
                let expected: Vec<u32> = (0..controls as i64)
                    .map(|index| match reaches && (first..end).contains(&index) {
                        true => 7,
                        false => 100 + index as u32,
                    })
                    .collect();
                let values = desk.read_all(1000, controls);
                assert_eq!(values, expected, "{controls} {start} {count}");
                desk.done(5, [1000, 0, 0, 0, 0], b"");
            }
        }
    }
}

#[test]
fn fills_across_the_end_of_the_buses() {
    let mut desk = Desk::with(&[]);
    let starts = [4093, 4094, 4095, 4096, 4097];
    for start in ENDS.into_iter().chain(starts) {
        for count in ENDS.into_iter().chain([4094, 4095, 4097]) {
            let numbers = |pattern| [start, 0, count, 0, pattern];
            let (first, end) = (i64::from(start), i64::from(start) + i64::from(count));
            if start < 0 || count < 0 || end > BUSES as i64 {
                desk.refused(22, 20, numbers(7), b"");
                continue;
            }
            desk.done(20, [0, 0, BUSES as i32, 0, 5], b"");
            desk.done(20, numbers(7), b"");
            for bus in [0, 1, first - 1, first, end - 1, end, 4095] {
                if (0..BUSES as i64).contains(&bus) {
                    let expected = if (first..end).contains(&bus) { 7 } else { 5 };
                    let reply = desk.reply(23, [bus as i32, 0, 0, 0, 0], b"");
                    assert_eq!(float(&reply), expected, "{start} {count} {bus}");
                }
            }
        }
    }
    desk.done(20, [4096, 0, 0, 0, 7], b"");
    desk.refused(22, 20, [4097, 0, 0, 0, 7], b"");
    desk.refused(22, 19, [4096, 0, 0, 0, 7], b"");
    desk.refused(22, 23, [4096, 0, 0, 0, 0], b"");
}

#[test]
fn a_group_of_mixed_definitions() {
    let mut twice = definition("twice", &["amp", "freq"], &[1, 2]);
    // A name means its first entry.
    twice.parameters.push((b"amp".to_vec(), 1));
    let mut desk = Desk::with(&[
        definition("one", &["freq"], &[10]),
        definition("two", &["pan", "freq", "amp"], &[20, 21, 22]),
        twice,
        definition("none", &[], &[]),
    ]);
    desk.group(1, 0);
    desk.group(2, 1);
    for (name, number, group) in [
        ("one", 11, 1),
        ("two", 12, 1),
        ("none", 13, 2),
        ("twice", 14, 2),
    ] {
        desk.synth(name, number, group);
    }
    // Off makes no difference.
    desk.done(12, [2, 0, 0, 0, 0], b"");
    desk.synth("two", 15, 0);
    let all =
        |desk: &mut Desk| [(11, 1), (12, 3), (14, 2), (15, 3)].map(|(n, p)| desk.read_all(n, p));
    desk.set(1, "amp", 5);
    let expected = [vec![10], vec![20, 21, 5], vec![5, 2], vec![20, 21, 22]];
    assert_eq!(all(&mut desk), expected);
    desk.set(2, "freq", 6);
    // A fill by name goes on from there, up to the next that has a name.
    desk.done(16, [1, 0, 2, 0, 7], b"pan");
    desk.done(13, [0, 2, 0, 0, 8], b"");
    let expected = [vec![10], vec![7, 21, 8], vec![5, 6], vec![20, 21, 8]];
    assert_eq!(all(&mut desk), expected);
    desk.done(19, [9, 0, 0, 0, 99], b"");
    desk.done(17, [1, 1, 9, 0, 0], b"");
    let expected = [vec![10], vec![7, 99, 8], vec![5, 99], vec![20, 21, 8]];
    assert_eq!(all(&mut desk), expected);
    // A set of one synth unmaps it alone, and the others' own floats return.
    desk.done(13, [12, 1, 0, 0, 3], b"");
    desk.done(17, [0, 1, -1, 0, 0], b"");
    let expected = [vec![10], vec![7, 3, 8], vec![5, 6], vec![20, 21, 8]];
    assert_eq!(all(&mut desk), expected);
    // Nothing has it: done, and nothing changes; a negative index is refused even so.
    desk.set(1, "wet", 4);
    desk.done(13, [1, i32::MAX, 0, 0, 4], b"");
    desk.refused(21, 13, [1, -1, 0, 0, 4], b"");
    desk.refused(21, 17, [1, i32::MIN, 3, 0, 0], b"");
    desk.refused(21, 15, [2, 0, -1, 0, 4], b"");
    assert_eq!(all(&mut desk), expected);
}

#[test]
fn maps_and_unmaps() {
    let mut desk = Desk::with(&[definition("pair", &["a", "b"], &[1, 2])]);
    desk.synth("pair", 1000, 0);
    let read = |desk: &mut Desk| desk.read_all(1000, 2);
    desk.done(18, [1000, 0, 4095, 0, 0], b"b");
    assert_eq!(read(&mut desk), [1, 0], "a bus starts at 0.0");
    desk.done(20, [4000, 0, 96, 0, 50], b"");
    assert_eq!(read(&mut desk), [1, 50]);
    desk.done(17, [1000, 0, 4095, 0, 0], b"");
    desk.done(17, [1000, 1, 0, 0, 0], b"");
    assert_eq!(read(&mut desk), [50, 0]);
    for bus in [4096, -2, i32::MIN, i32::MAX, 65536] {
        desk.refused(22, 17, [1000, 0, bus, 0, 0], b"");
        // 22 comes before 21, and 17 before both.
        desk.refused(22, 17, [1000, 5, bus, 0, 0], b"");
        desk.refused(17, 17, [7, 5, bus, 0, 0], b"");
    }
    desk.done(17, [1000, 1, -1, 0, 0], b"");
    assert_eq!(read(&mut desk), [50, 2]);
    desk.done(15, [1000, 0, 2, 0, 60], b"");
    desk.done(19, [4095, 0, 0, 0, 51], b"");
    assert_eq!(read(&mut desk), [60, 60], "a fill unmaps");
}

#[test]
fn integers_become_equal_floats() {
    let mut desk = Desk::with(&[definition("one", &["a"], &[1])]);
    desk.synth("one", 1000, 0);
    for (integer, float) in [
        (0, 0.0f32),
        (1, 1.0),
        (-1, -1.0),
        (16_777_215, 16_777_215.0),
        (16_777_216, 16_777_216.0),
        (-16_777_216, -16_777_216.0),
    ] {
        desk.done(13, [1000, 0, 0, 1, integer], b"");
        assert_eq!(desk.read(1000, 0), float.to_bits());
        desk.done(19, [3, 0, 0, 1, integer], b"");
        desk.done(17, [1000, 0, 3, 0, 0], b"");
        assert_eq!(desk.read(1000, 0), float.to_bits());
    }
    for integer in [16_777_217, -16_777_217, i32::MAX, i32::MIN] {
        // 23 comes before 21 and after 22.
        desk.refused(23, 13, [1000, 5, 0, 1, integer], b"");
        desk.refused(23, 15, [0, -1, 0, 1, integer], b"");
        desk.refused(23, 20, [4096, 0, 0, 1, integer], b"");
        desk.refused(22, 20, [4097, 0, 0, 1, integer], b"");
    }
}

const SEQUENCES: usize = 50;
const LENGTH: usize = 2300;

const GROUPS: [i32; 5] = [0, 901, 902, 903, 904];

#[test]
fn controls_agree() {
    let tallies = sequences(SEQUENCES, LENGTH, Stage::new, Stage::turn, Stage::end);
    check(
        &tallies,
        &[
            ("operations", 100_000),
            ("fills to a synth's last control", 1000),
            ("fills one past it", 1000),
            ("fills of all that a name covers", 500),
            ("fills of one more", 250),
            ("sums past 31 bits", 500),
            ("sums of patterns past 32 bits", 1000),
            ("negative numbers", 1000),
            ("changes of groups", 1000),
            ("maps", 1000),
            ("unmaps", 1000),
            ("NaNs", 10_000),
        ],
    );
}

/// Both engines, and what is known of their synths.
struct Stage {
    random: Random,
    pair: Pair,
    definitions: Vec<Definition>,
    /// Each synth's number and its definition.
    synths: Vec<(i32, usize)>,
    latest: Option<i32>,
    tally: Tally,
}

/// What a command names.
#[derive(Clone, Copy)]
enum Named {
    Group,
    Synth(usize),
    Nothing,
}

impl Stage {
    fn new(mut random: Random) -> Stage {
        let definitions = (0..6).map(|at| shaped(&mut random, at)).collect();
        let mut stage = Stage {
            pair: Pair::fresh(&mut random),
            random,
            definitions,
            synths: Vec::new(),
            latest: None,
            tally: Tally::default(),
        };
        stage.begin().expect("the stage is set");
        stage
    }

    fn end(mut self) -> Tally {
        self.tally.add("operations", self.pair.sent);
        self.tally
    }

    fn begin(&mut self) -> Result<(), String> {
        let file = write(&self.definitions).bytes;
        self.pair
            .expect(0, &Call::new(1, [0; 5], &file), &mut self.random)?;
        for group in &GROUPS[1..] {
            let above = self.random.one_of(&GROUPS[..(group - 900) as usize]);
            self.pair.expect(
                0,
                &Call::new(4, [*group, 1, above, 0, 0], b""),
                &mut self.random,
            )?;
        }
        for _ in 0..self.random.one_of(&[4, 12, 40]) {
            self.synth()?;
        }
        if self.random.below(2) == 0 {
            self.pair.shuffle(&mut self.random);
        }
        Ok(())
    }

    fn turn(&mut self) -> Result<(), String> {
        match self.random.below(100) {
            0..=19 => self.change(13),
            20..=49 => self.change(15),
            50..=66 => self.change(17),
            67..=74 => self.buses(),
            75..=89 => self.read(),
            90..=93 => self.synth(),
            94..=95 => self.free(),
            96 => self.send_of_groups(10),
            97 => self.send_of_groups(25),
            98 => {
                self.pair.shuffle(&mut self.random);
                Ok(())
            }
            _ => self.pair.compare_views(),
        }
    }

    fn synth(&mut self) -> Result<(), String> {
        let number = 1 + self.random.below(800) as i32;
        if self.synths.len() >= 80 || self.synths.iter().any(|synth| synth.0 == number) {
            return Ok(());
        }
        let definition = self.random.below(self.definitions.len());
        let group = self.random.one_of(&GROUPS);
        let name = self.definitions[definition].name.clone();
        self.pair.expect(
            0,
            &Call::new(3, [number, 1, group, 0, 0], &name),
            &mut self.random,
        )?;
        self.synths.push((number, definition));
        self.latest = Some(number);
        Ok(())
    }

    fn free(&mut self) -> Result<(), String> {
        if self.synths.is_empty() {
            return Ok(());
        }
        let at = self.random.below(self.synths.len());
        let (number, _) = self.synths.swap_remove(at);
        self.latest = self.latest.filter(|&latest| latest != number);
        self.pair.expect(
            0,
            &Call::new(5, [number, 0, 0, 0, 0], b""),
            &mut self.random,
        )
    }

    /// Moves a synth into a group, or shows a group's tree.
    fn send_of_groups(&mut self, op: u32) -> Result<(), String> {
        let group = self.random.one_of(&GROUPS);
        let call = match (op, self.synths.first()) {
            (10, Some(&(synth, _))) => Call::new(10, [group, synth, 0, 0, 0], b""),
            _ => Call::new(25, [group, 1, 0, 0, 0], b""),
        };
        self.pair.send(&call, &mut self.random).map(drop)
    }

    /// A number that a command names a node by, and what it is.
    fn node(&mut self) -> (i32, Named) {
        let synths = &self.synths;
        let kind = |number| synths.iter().find(|synth| synth.0 == number);
        let named = |number| kind(number).map_or(Named::Nothing, |synth| Named::Synth(synth.1));
        match self.random.below(20) {
            0..=12 if !synths.is_empty() => {
                let (number, definition) = self.random.one_of(synths);
                (number, Named::Synth(definition))
            }
            0..=16 => (self.random.one_of(&GROUPS), Named::Group),
            17..=18 => (-1, self.latest.map_or(Named::Nothing, named)),
            _ => {
                let number = self.random.one_of(&[-2, -8, -9, i32::MIN, 850, i32::MAX]);
                (number, Named::Nothing)
            }
        }
    }

    /// A value as it is sent, and whether it is one.
    fn value(&mut self) -> ([i32; 2], bool) {
        match self.random.below(10) {
            0..=5 => ([0, self.nan() as i32], true),
            6..=7 => ([0, self.random.bits() as i32], true),
            _ => {
                let ends = [0, 1, 440, 16_777_215, 16_777_216, 16_777_217, i32::MAX];
                let number = self.random.one_of(&ends);
                let number = self.random.one_of(&[number, -number]);
                let fits = (-16_777_216..=16_777_216).contains(&number);
                ([1, number], fits)
            }
        }
    }

    /// A NaN: both signs, quiet and signalling, few bits and many.
    fn nan(&mut self) -> u32 {
        self.tally.count("NaNs", true);
        let any = self.random.bits() as u32;
        let low = match self.random.below(4) {
            0 => 1 << self.random.below(23),
            1 => !(1 << self.random.below(23)),
            2 => any & 0xff | self.random.one_of(&[0, 0x40_0000]),
            _ => any,
        };
        any & 0x8000_0000 | 0x7f80_0000 | (low & 0x7f_ffff).max(1)
    }

    /// The controls that a synth has, or some number of them.
    fn controls(&mut self, named: Named) -> usize {
        match named {
            Named::Synth(definition) => self.definitions[definition].initial.len(),
            _ => self.random.one_of(&[0, 1, 3, MOST_PARAMETERS]),
        }
    }

    /// An index, mostly near the ends of so many controls.
    fn index(&mut self, controls: usize) -> i32 {
        match self.random.below(10) {
            0 => self.random.one_of(&ENDS),
            1 => self.random.one_of(&[-1, controls as i32, i32::MAX]),
            2..=3 => controls as i32 - 1,
            _ => self.random.below(controls.max(1)) as i32,
        }
    }

    /// A count, mostly so that it ends near the end.
    fn count(&mut self, index: i32, end: usize) -> i32 {
        let rest = (end as i32).wrapping_sub(index);
        match self.random.below(10) {
            0 => self.random.one_of(&ENDS),
            1 => self.random.one_of(&[-1, i32::MIN, i32::MAX]),
            2..=3 => rest,
            4..=5 => rest.wrapping_add(1),
            6 => rest.wrapping_sub(1),
            7 => 0,
            _ => self.random.below(5) as i32,
        }
    }

    /// A set, a fill or a map, by index or by name.
    fn change(&mut self, by_index: u32) -> Result<(), String> {
        let op = by_index + self.random.below(2) as u32;
        let (fills, maps) = (by_index == 15, by_index == 17);
        let (node, named) = self.node();
        let controls = self.controls(named);
        let name = self.random.one_of(&NAMES);
        // The first control, if the node has one of that name, and how many may follow.
        let first = match named {
            _ if op == by_index => Some((self.index(controls), i32::MAX)),
            Named::Synth(definition) => covered(&self.definitions[definition], name),
            _ => Some((0, i32::MAX)),
        };
        let (start, width) = first.unwrap_or((0, i32::MAX));
        let count = match first {
            _ if !fills => 1,
            Some((_, width)) if width < i32::MAX && self.random.below(2) == 0 => {
                width - 1 + self.random.below(3) as i32
            }
            _ => self.count(start, controls),
        };
        let end = i64::from(start) + i64::from(count);
        let bus = self.bus();
        let (value, is_value) = self.value();
        let within = match named {
            Named::Synth(_) => first.is_some() && end <= controls as i64,
            _ => true,
        };
        let answer = match named {
            Named::Nothing => 17,
            _ if maps && !(-1..BUSES as i32).contains(&bus) => 22,
            _ if !maps && !is_value => 23,
            _ if start < 0 || count < 0 || !within => 21,
            _ if count > width => 28,
            _ => 0,
        };
        let third = if maps { bus } else { count };
        self.pair.expect(
            answer,
            &Call::new(op, [node, start, third, value[0], value[1]], name),
            &mut self.random,
        )?;
        let synth = matches!(named, Named::Synth(_));
        self.count_sum(start, count);
        let tally = &mut self.tally;
        let filled = fills && synth && end == controls as i64;
        tally.count("fills to a synth's last control", filled && answer == 0);
        let past = fills && synth && end == controls as i64 + 1;
        tally.count("fills one past it", past && answer == 21);
        let by_name = fills && width < i32::MAX;
        let all = by_name && count == width && answer == 0;
        tally.count("fills of all that a name covers", all);
        let more = by_name && count == width + 1 && answer == 28;
        tally.count("fills of one more", more);
        tally.count("changes of groups", answer == 0 && !synth);
        tally.count("maps", answer == 0 && maps && bus >= 0);
        tally.count("unmaps", answer == 0 && maps && bus < 0);
        // What was set is read.
        if answer == 0 && synth && !maps && count > 0 && value[0] == 0 {
            let last = (end - 1) as i32;
            let get = Call::new(21, [node, last, 0, 0, 0], b"");
            if float(self.pair.ask(&get)?) != value[1] as u32 {
                return Err(format!("control {last} of {node} is not {}", value[1]));
            }
        }
        Ok(())
    }

    fn count_sum(&mut self, start: i32, count: i32) {
        let patterns = [start, count].map(|number| u64::from(number as u32));
        let tally = &mut self.tally;
        tally.count(
            "sums past 31 bits",
            i64::from(start) + i64::from(count) > i64::from(i32::MAX),
        );
        tally.count(
            "sums of patterns past 32 bits",
            patterns.iter().sum::<u64>() > u64::from(u32::MAX),
        );
        tally.count("negative numbers", start < 0 || count < 0);
    }

    /// A bus that controls follow, or none.
    fn bus(&mut self) -> i32 {
        match self.random.below(10) {
            0..=3 => -1,
            4..=7 => self.random.below(8) as i32,
            8 => self.random.one_of(&[4094, 4095, 4096, 4097]),
            _ => self.random.one_of(&ENDS),
        }
    }

    fn buses(&mut self) -> Result<(), String> {
        let (value, fits) = self.value();
        let start = self.bus();
        let op = self.random.one_of(&[19, 20]);
        let count = match op {
            19 => 1,
            _ => self.count(start, BUSES),
        };
        let end = i64::from(start) + i64::from(count);
        let answer = match fits {
            _ if start < 0 || count < 0 || end > BUSES as i64 => 22,
            false => 23,
            true => 0,
        };
        self.count_sum(start, count);
        self.pair.expect(
            answer,
            &Call::new(op, [start, 5, count, value[0], value[1]], b""),
            &mut self.random,
        )
    }

    /// Reads a control or a bus.
    fn read(&mut self) -> Result<(), String> {
        let (node, named) = self.node();
        let controls = self.controls(named);
        let call = match self.random.below(4) {
            0 => Call::new(23, [self.bus(), 0, 0, 0, 0], b""),
            1 => Call::new(22, [node, 0, 0, 0, 0], self.random.one_of(&NAMES)),
            _ => Call::new(21, [node, self.index(controls), 0, 0, 0], b""),
        };
        let answer = self.pair.send(&call, &mut self.random);
        answer.map(drop).map_err(|what| format!("{what}: {call:?}"))
    }
}
