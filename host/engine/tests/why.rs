//! Why a number is silent: by hand, and the proved answer against the independent one, for every number
//! that lives and many that do not, after each of many commands; and on damaged states.

mod common;

use common::damage::{hurt, reach};
use common::desk::{definition, Desk};
use common::pair::Pair;
use common::tally::{check, Tally};
use common::{seed, sequences, spread};
use engine::Reason;
use independent::engine::{Commands, Theme, EDGES, MOST_NODES};
use independent::layout::{ARENA, WORDS};
use independent::{write, Call, Random, Reason as Plain, View};

#[test]
fn each_reason() {
    let mut desk = Desk::with(&[definition("rain", &[], &[])]);
    desk.group(1, 0);
    desk.group(2, 1);
    desk.synth("rain", 1000, 2);
    desk.synth("rain", 1001, 1);
    desk.synth("rain", -1, 0);
    let run = |desk: &mut Desk, node, flag| desk.done(12, [node, flag, 0, 0, 0], b"");
    let reasons = |desk: &Desk| [1000, 1001, -8].map(|number| desk.0.why(number));
    let [first, second, third] = [1, 2, 3].map(|place| Ok(Reason::Running(place)));
    let under = |number| Ok(Reason::AncestorOff(number));
    assert_eq!(reasons(&desk), [first, second, third]);
    run(&mut desk, 1000, 0);
    assert_eq!(reasons(&desk), [Ok(Reason::Off), first, second]);
    run(&mut desk, 2, 0);
    assert_eq!(reasons(&desk), [Ok(Reason::Off), first, second]);
    run(&mut desk, 1000, 1);
    assert_eq!(reasons(&desk), [under(2), first, second]);
    run(&mut desk, 1, 0);
    assert_eq!(reasons(&desk), [under(1), under(1), first]);
    assert_eq!(desk.0.why(-1), first);
    run(&mut desk, 0, 0);
    assert_eq!(reasons(&desk), [under(0); 3]);
    for group in [0, 1, 2] {
        assert_eq!(desk.0.why(group), Ok(Reason::Group));
    }
    // The latest synth goes, and its number comes again as another node's.
    desk.synth("rain", 5, 0);
    desk.done(5, [5, 0, 0, 0, 0], b"");
    desk.group(5, 0);
    for number in [-1, 3, -2, -7, -9, i32::MIN, i32::MAX] {
        assert_eq!(desk.0.why(number), Ok(Reason::NoSuchNode), "{number}");
    }
    assert_eq!(desk.0.why(5), Ok(Reason::Group));
}

const SEQUENCES: usize = 60;
const LENGTH: usize = 1700;

/// Kinds of commands that shape the tree or turn it on and off.
const KINDS: [u32; 20] = [
    3, 3, 3, 3, 3, 3, 4, 4, 4, 5, 8, 9, 10, 11, 12, 12, 12, 12, 12, 12,
];

#[test]
fn every_number_after_every_command() {
    let tallies = sequences(SEQUENCES, LENGTH, Stage::new, Stage::turn, |stage| {
        stage.pair.compare_views().expect("both hold the same");
        stage.tally
    });
    check(
        &tallies,
        &[
            ("commands", 100_000),
            ("no such node", 800_000),
            ("groups", 300_000),
            ("off by their own flag", 50_000),
            ("off below an off group", 5_000),
            ("an ancestor off", 80_000),
            ("two ancestors off or more", 1_000),
            ("the root off", 4_000),
            ("running", 300_000),
            ("running at place 10 or later", 20_000),
            ("the latest synth", 40_000),
            ("no latest synth, but its number lives", 20),
            ("generated numbers that live", 100_000),
        ],
    );
}

/// Both engines, and what is asked of them.
struct Stage {
    random: Random,
    commands: Commands,
    pair: Pair,
    /// About so many nodes live at most.
    most: usize,
    /// Numbers that lived.
    gone: Vec<i32>,
    /// The latest synth as it was last known.
    latest: i32,
    tally: Tally,
}

impl Stage {
    fn new(mut random: Random) -> Stage {
        let mut pair = Pair::fresh(&mut random);
        let file = write(&[definition("rain", &["amp"], &[7])]).bytes;
        let load = Call::new(1, [0; 5], &file);
        pair.expect(0, &load, &mut random).expect("it is accepted");
        let theme = random.one_of(&Theme::ALL);
        Stage {
            commands: Commands::new(Random::new(random.bits()), theme),
            most: random.one_of(&[6, 12, 12, 25, 25, 60]),
            gone: Vec::new(),
            latest: 0,
            tally: Tally::default(),
            pair,
            random,
        }
    }

    /// A command, and then every question.
    fn turn(&mut self) -> Result<(), String> {
        let full = self.pair.model.nodes() >= self.most;
        let op = match self.random.below(100) {
            0 => self.random.one_of(&[6, 7]),
            _ if full => self.random.one_of(&[5, 5, 8, 10, 12, 12]),
            _ => self.random.one_of(&KINDS),
        };
        let before = self.pair.model.view();
        // The root does not stay off for long.
        let call = match before.nodes[0].on || self.random.below(4) > 0 {
            true => self.commands.kind(op, &self.pair.model),
            false => Call::new(12, [0, 1, 0, 0, 0], b""),
        };
        let sent = self.pair.send(&call, &mut self.random);
        sent.map_err(|what| format!("{what}: {call:?}"))?;
        self.tally.add("commands", 1);
        let view = self.pair.model.view();
        let lives = |number: i32| view.nodes.iter().any(|node| node.number == number);
        let gone = before.nodes.iter().map(|node| node.number);
        self.gone.extend(gone.filter(|&number| !lives(number)));
        self.latest = before.latest.or(view.latest).unwrap_or(self.latest);
        self.ask(&view)
            .map_err(|what| format!("{what}, after {call:?}"))
    }

    fn ask(&mut self, view: &View) -> Result<(), String> {
        // Of each depth down to the node at hand, whether it is off.
        let mut off: Vec<bool> = Vec::new();
        for node in &view.nodes {
            off.truncate(node.depth);
            let above = off.iter().filter(|&&off| off).count();
            off.push(!node.on);
            let reason = self.pair.why(node.number)?;
            self.count(reason, above);
            let generated = node.number < 0;
            self.tally.count("generated numbers that live", generated);
        }
        for number in EDGES {
            self.other(number)?;
        }
        for _ in 0..4 {
            let number = match self.random.below(4) {
                0 => self.random.bits() as i32,
                1 => -8 - self.random.below(40) as i32,
                2 => self.random.below(100) as i32,
                _ if self.gone.is_empty() => self.latest,
                _ => self.random.one_of(&self.gone),
            };
            self.other(number)?;
        }
        let latest = self.pair.why(-1)? != Plain::NoSuchNode;
        self.tally.count("the latest synth", latest);
        let again = self.pair.why(self.latest)? != Plain::NoSuchNode;
        let again = !latest && self.latest > 0 && again;
        self.tally
            .count("no latest synth, but its number lives", again);
        if latest != view.latest.is_some() {
            return Err(format!("-1, but the latest is {:?}", view.latest));
        }
        Ok(())
    }

    /// Asks of a number that may be no node's.
    fn other(&mut self, number: i32) -> Result<(), String> {
        let reason = self.pair.why(number)?;
        self.tally
            .count("no such node", reason == Plain::NoSuchNode);
        Ok(())
    }

    /// Counts the reason of a node that lives, below so many groups that are off.
    fn count(&mut self, reason: Plain, above: usize) {
        let tally = &mut self.tally;
        match reason {
            Plain::NoSuchNode => panic!("it lives"),
            Plain::Group => tally.add("groups", 1),
            Plain::Off => {
                tally.add("off by their own flag", 1);
                tally.count("off below an off group", above > 0);
            }
            Plain::AncestorOff(number) => {
                tally.add("an ancestor off", 1);
                tally.count("two ancestors off or more", above > 1);
                tally.count("the root off", number == 0);
            }
            Plain::Running(place) => {
                tally.add("running", 1);
                tally.count("running at place 10 or later", place >= 10);
            }
        }
    }
}

/// The parent of the synth that lies deepest, and its parent.
fn above_the_deepest(view: &View) -> impl Iterator<Item = i32> {
    let synths = view
        .nodes
        .iter()
        .enumerate()
        .filter(|(_, node)| node.synth.is_some());
    let (place, deepest) = synths
        .max_by_key(|(_, node)| node.depth)
        .expect("there is a synth");
    let above = |depth: usize| {
        let before = view.nodes[..place].iter().rev();
        before
            .filter(move |node| node.depth == depth)
            .map(|node| node.number)
            .next()
    };
    let numbers = [1, 2].map(|up| above(deepest.depth.saturating_sub(up)));
    numbers.into_iter().flatten()
}

/// As many nodes as there can be, in groups within groups.
#[test]
fn every_number_of_full_trees() {
    let seed = seed();
    let tallies = spread(10, |place| {
        let mut random = Random::new(seed.wrapping_add((place as u64) << 32));
        let mut stage = Stage {
            commands: Commands::new(Random::new(random.bits()), Theme::Deep),
            ..Stage::new(random)
        };
        stage.most = MOST_NODES;
        while stage.pair.model.nodes() < stage.most {
            let op = stage.random.one_of(&[3, 4, 4]);
            let call = stage.commands.kind(op, &stage.pair.model);
            let sent = stage.pair.send(&call, &mut stage.random);
            sent.unwrap_or_else(|what| panic!("LIMUDVEK_SEED={seed}, {what}: {call:?}"));
        }
        // In every other tree the two groups above the synth that lies deepest are off at first.
        for number in above_the_deepest(&stage.pair.model.view()).filter(|_| place % 2 == 0) {
            let call = Call::new(12, [number, 0, 0, 0, 0], b"");
            let sent = stage.pair.send(&call, &mut stage.random);
            sent.unwrap_or_else(|what| panic!("LIMUDVEK_SEED={seed}, {what}: {call:?}"));
        }
        for _ in 0..100 {
            if let Err(what) = stage.turn() {
                panic!("LIMUDVEK_SEED={seed}, tree {place}: {what}");
            }
        }
        stage.tally
    });
    check(
        &tallies,
        &[
            ("commands", 1_000),
            ("two ancestors off or more", 20),
            ("running", 1_000),
        ],
    );
}

/// On a damaged state the answer is 1 for every number where the checker finds a rule broken, and nothing
/// else; else it is what the state holds.
#[test]
fn damaged_states() {
    let seed = seed();
    let tallies = spread(100, |place| {
        let mut random = Random::new(seed.wrapping_add((place as u64) << 32));
        let (mut pair, _) = reach(&mut random, place);
        let (words, arena) = (pair.words.clone(), pair.arena.clone());
        let mut tally = Tally::default();
        for _ in 0..100 {
            let times = random.one_of(&[1, 1, 2]);
            hurt(times, &mut random, &mut pair.words, &mut pair.arena);
            let formed = pair.adopt();
            let live = pair.model.view().nodes;
            let known = live[random.below(live.len())].number;
            let any = random.bits() as i32;
            for number in EDGES.into_iter().chain([known, any]) {
                let asked = match formed {
                    true => pair.why(number).map(drop),
                    false => pair.refuse_why(number),
                };
                if let Err(what) = asked {
                    panic!("LIMUDVEK_SEED={seed}, state {place}: {what}");
                }
            }
            tally.count("refused with 1", !formed);
            tally.count("still well formed", formed);
            pair.words.copy_from_slice(&words);
            pair.arena.copy_from_slice(&arena);
        }
        tally
    });
    check(
        &tallies,
        &[("refused with 1", 3_000), ("still well formed", 1_000)],
    );
}

/// Runs of other lengths are refused with 1.
#[test]
fn wrong_sizes() {
    let pair = Pair::fresh(&mut Random::new(7));
    let lengths = |right: usize| [0, 1, right - 1, right, right + 1, 2 * right];
    for words_length in lengths(WORDS) {
        for arena_length in lengths(ARENA) {
            let (mut words, mut arena) = (pair.words.clone(), pair.arena.clone());
            words.resize(words_length, 0);
            arena.resize(arena_length, 0);
            let right = (words_length, arena_length) == (WORDS, ARENA);
            for (number, reason) in [(0, 0x200), (-1, 0x100), (7, 0x100)] {
                let expected = if right { reason } else { 1 };
                assert_eq!(engine::why(number as u32, &words, &arena), expected);
            }
        }
    }
}
