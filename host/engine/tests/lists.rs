//! Lists of commands in one call: the proved engine against the independent one, and against itself
//! where the commands are sent one by one. Answers, and every word and byte of the state are compared.

mod common;

use common::damage::{hurt, reach};
use common::desk::{definition, Desk};
use common::lent::{lend, spoil, SPOILT};
use common::pair::Pair;
use common::tally::{check, Tally};
use common::{seed, sequences, spread};
use engine::settings::RECALL;
use engine::{List, ListRefused, Refused, UNKNOWN};
use independent::engine::{Commands, Theme};
use independent::layout::{ARENA, WORDS};
use independent::{lend_list, read_list, write, Call, Engine, Random, MOST_COMMANDS};

const TOO_LONG: u64 = 34;

/// Commands that are known and do not reply, for the engine as it is after those before.
struct Source {
    commands: Commands,
    model: Engine,
}

impl Source {
    fn of(commands: &Commands, model: &Engine) -> Source {
        Source {
            commands: commands.clone(),
            model: model.clone(),
        }
    }

    /// Whichever comes.
    fn next(&mut self) -> Call {
        loop {
            let call = self.commands.next(&self.model);
            if call.command().is_some_and(|command| !command.replies()) {
                return call;
            }
        }
    }

    /// Sends a command to the model. Answers whether it is accepted.
    fn send(&mut self, call: &Call) -> bool {
        let command = call.command().expect("it is known");
        self.model.apply(&command, &mut []).is_ok()
    }

    /// One that is accepted, and is done.
    fn accepted(&mut self) -> Call {
        loop {
            let call = self.next();
            if self.send(&call) {
                return call;
            }
        }
    }

    /// One that is refused, now and then a file.
    fn refused(&mut self) -> Call {
        let file = self.commands.random.below(8) == 0;
        loop {
            let call = if file {
                self.commands.kind(1, &self.model)
            } else {
                self.next()
            };
            let before = self.model.clone();
            if !self.send(&call) {
                return call;
            }
            self.model = before;
        }
    }
}

/// One engine, and lists for it.
struct Sequence {
    random: Random,
    commands: Commands,
    pair: Pair,
    tally: Tally,
}

impl Sequence {
    fn new(mut random: Random) -> Sequence {
        let theme = random.one_of(&Theme::ALL);
        Sequence {
            commands: Commands::new(Random::new(random.bits()), theme),
            pair: Pair::fresh(&mut random),
            random,
            tally: Tally::default(),
        }
    }

    /// A list of accepted commands, with one that is refused at some place and others after it, or to its
    /// end.
    fn calls(&mut self, length: usize, refused_at: Option<usize>) -> Vec<Call> {
        let mut source = Source::of(&self.commands, &self.pair.model);
        let mut calls: Vec<Call> = (0..refused_at.unwrap_or(length))
            .map(|_| source.accepted())
            .collect();
        if refused_at.is_some() {
            calls.push(source.refused());
        }
        while calls.len() < length {
            // Past the refused one any will do.
            let past = match self.random.below(8) {
                0 => source.next(),
                _ => calls[self.random.below(calls.len())].clone(),
            };
            calls.push(past);
        }
        self.commands = source.commands;
        calls
    }

    /// A length: most lists are short, a few as long as they can be.
    fn length(&mut self) -> usize {
        match self.random.below(200) {
            0 => self.random.one_of(&[MOST_COMMANDS - 1, MOST_COMMANDS]),
            1 => self.random.below(MOST_COMMANDS + 1),
            2..=7 => self.random.below(65),
            8..=27 => self.random.below(2),
            _ => self.random.below(17),
        }
    }

    fn turn(&mut self) -> Result<(), String> {
        let length = self.length();
        let random = &mut self.random;
        let mut replies = false;
        let calls = match random.below(20) {
            0..=6 => self.calls(length, None),
            7..=13 if length > 0 => {
                let place = random.up_to(length - 1);
                self.calls(length, Some(place))
            }
            // One that replies or a recall, at any place.
            14..=15 => {
                replies = true;
                let mut calls = self.calls(length.min(MOST_COMMANDS - 1), None);
                let place = self.random.up_to(calls.len());
                let op = 21 + self.random.below(8) as u32;
                let query = self.commands.kind(op, &self.pair.model);
                calls.insert(place, query);
                calls
            }
            // Too many.
            16 => {
                let short = self.calls(1 + length % 16, None);
                let length = self.random.one_of(&[513, 513, 514, 600, 1024, 2049]);
                short.into_iter().cycle().take(length).collect()
            }
            // Whatever comes.
            _ => {
                let mut source = Source::of(&self.commands, &self.pair.model);
                let mut calls = Vec::new();
                while calls.len() < length {
                    calls.push(source.next());
                    source.send(&calls[calls.len() - 1]);
                }
                self.commands = source.commands;
                calls
            }
        };
        let (mut items, bytes) = lend(&calls, &mut self.random);
        let spoilt = (self.random.below(8) == 0).then(|| {
            let way = spoil(&mut items, &bytes, &mut self.random);
            self.tally.add(way, 1);
        });
        let answer = self
            .pair
            .list(&items, &bytes)
            .map_err(|what| format!("{what}: {items:?} {bytes:02x?}"))?;
        let whole = calls.len() > MOST_COMMANDS || replies;
        let settled = match (spoilt, whole) {
            (Some(()), _) => answer == UNKNOWN,
            (None, true) => answer == TOO_LONG,
            (None, false) => answer % 256 != UNKNOWN && answer % 256 != TOO_LONG,
        };
        if !settled {
            return Err(format!("answer {answer:#x} to {items:?}"));
        }
        self.count(&calls, answer);
        // Between two lists now and then a command, and anything in what the state leaves open.
        if self.random.below(8) == 0 {
            let call = self.commands.next(&self.pair.model);
            let sent = self.pair.send(&call, &mut self.random);
            sent.map_err(|what| format!("{what}: {call:?}"))?;
        }
        if self.random.below(50) == 0 {
            self.pair.shuffle(&mut self.random);
        }
        Ok(())
    }

    fn count(&mut self, calls: &[Call], answer: u64) {
        let (number, accepted, place) = (answer % 256, answer >> 8 & 0xffff, answer >> 24);
        let tally = &mut self.tally;
        let tried = &calls[..accepted as usize];
        tally.add("lists", 1);
        tally.add("commands accepted in lists", tried.len());
        tally.add(
            "loads accepted in lists",
            tried.iter().filter(|call| call.op == 1).count(),
        );
        tally.count("lists of 0", calls.is_empty() && number == 0);
        tally.count("lists of 1, accepted", calls.len() == 1 && number == 0);
        tally.count("lists of 511, accepted", calls.len() == 511 && number == 0);
        tally.count("lists of 512, accepted", calls.len() == 512 && number == 0);
        tally.count("lists of 513, refused", calls.len() == 513 && number == 34);
        tally.count("refused whole", number == 34);
        tally.count("refused with a place", place > 0);
        tally.count(
            "refused at the first",
            accepted == 0 && (2..34).contains(&number),
        );
        tally.count("refused later", accepted > 0 && number > 0);
        tally.count(
            "refused at the last",
            number > 0 && tried.len() + 1 == calls.len(),
        );
    }
}

#[test]
fn lists_go_as_commands_one_by_one() {
    let tallies = sequences(40, 500, Sequence::new, Sequence::turn, |sequence| {
        sequence.pair.compare_views().expect("both hold the same");
        sequence.tally
    });
    check(
        &tallies,
        &[
            ("lists", 20_000),
            ("commands accepted in lists", 60_000),
            ("loads accepted in lists", 2_000),
            ("lists of 0", 300),
            ("lists of 1, accepted", 500),
            ("lists of 511, accepted", 2),
            ("lists of 512, accepted", 2),
            ("lists of 513, refused", 100),
            ("refused whole", 2_000),
            ("refused with a place", 300),
            ("refused at the first", 1_500),
            ("refused later", 1_500),
            ("refused at the last", 1_000),
        ],
    );
    check(&tallies, &SPOILT.map(|way| (way, 200)));
}

/// Of 512 commands each is once the one that is refused.
#[test]
fn refused_at_every_place() {
    let seed = seed();
    const WAYS: usize = 32;
    let tallies = spread(WAYS, |way| {
        let mut sequence = Sequence::new(Random::new(seed.wrapping_add((way as u64) << 32)));
        for place in (way..MOST_COMMANDS).step_by(WAYS) {
            let left = MOST_COMMANDS - place;
            let length = place + 1 + sequence.random.up_to(left - 1);
            let calls = sequence.calls(length, Some(place));
            let (items, bytes) = lend(&calls, &mut sequence.random);
            let answer = sequence
                .pair
                .list(&items, &bytes)
                .unwrap_or_else(|what| panic!("LIMUDVEK_SEED={seed}, place {place}: {what}"));
            assert_eq!((answer >> 8 & 0xffff) as usize, place);
            assert!((2..=28).contains(&(answer % 256)), "{answer:#x}");
            sequence.tally.add("places", 1);
        }
        sequence.tally
    });
    check(&tallies, &[("places", MOST_COMMANDS)]);
}

/// A list on a damaged state is refused with 1 exactly where the checker finds a rule broken, after 255
/// and before 34; else it goes on from what the state holds.
#[test]
fn damaged_states() {
    let seed = seed();
    let tallies = spread(100, |place| {
        let mut random = Random::new(seed.wrapping_add((place as u64) << 32));
        let (pair, commands) = reach(&mut random, place);
        let (words, arena, model) = (pair.words.clone(), pair.arena.clone(), pair.model.clone());
        let mut sequence = Sequence {
            random,
            commands,
            pair,
            tally: Tally::default(),
        };
        for _ in 0..50 {
            let length = sequence.random.below(6);
            let mut calls = sequence.calls(length, None);
            let Sequence {
                random,
                commands,
                pair,
                tally,
            } = &mut sequence;
            hurt(1, random, &mut pair.words, &mut pair.arena);
            let whole = random.below(4) == 0;
            if whole {
                let op = random.one_of(&[26, RECALL]);
                calls.push(commands.kind(op, &model));
            }
            let (mut items, bytes) = lend(&calls, random);
            if random.below(4) == 0 {
                spoil(&mut items, &bytes, random);
            }
            let none = read_list(&items, &bytes).is_none();
            let formed = pair.adopt();
            let sent = if formed {
                pair.list(&items, &bytes).map(|_| ())
            } else {
                pair.refuse_list(&items, &bytes)
            };
            if let Err(what) = sent {
                panic!("LIMUDVEK_SEED={seed}, state {place}: {what}: {items:?}");
            }
            tally.count("refused with 1", !formed && !none);
            tally.count("refused with 1 and not with 34", !formed && !none && whole);
            tally.count("no lists on a broken state", !formed && none);
            tally.count("still well formed", formed);
            pair.words.copy_from_slice(&words);
            pair.arena.copy_from_slice(&arena);
            pair.model = model.clone();
        }
        sequence.tally
    });
    check(
        &tallies,
        &[
            ("refused with 1", 1_000),
            ("refused with 1 and not with 34", 200),
            ("no lists on a broken state", 200),
            ("still well formed", 500),
        ],
    );
}

/// Runs of other lengths are refused with 1, by the empty list too, after 255.
#[test]
fn wrong_sizes() {
    let calls = vec![Call::new(19, [7, 0, 0, 0, 1], b""); 513];
    for (words_length, arena_length) in [
        (0, 0),
        (WORDS - 1, ARENA),
        (WORDS + 1, ARENA),
        (WORDS, ARENA - 1),
        (WORDS, ARENA + 1),
        (WORDS, 0),
        (0, ARENA),
    ] {
        let mut pair = Pair::fresh(&mut Random::new(7));
        pair.words.resize(words_length, 0);
        pair.arena.resize(arena_length, 0);
        pair.expected_words = pair.words.clone();
        pair.expected_arena = pair.arena.clone();
        for count in [0, 1, 512, 513] {
            let (mut items, bytes) = lend_list(&calls[..count]);
            pair.refuse_list(&items, &bytes).expect("1");
            items.push(0);
            pair.refuse_list(&items, &bytes).expect("255");
        }
    }
}

/// By hand, by the wrapper.
#[test]
fn a_list_by_the_wrapper() {
    let mut desk = Desk::with(&[definition("rain", &["amp"], &[7])]);
    let mut list = List::new();
    assert_eq!(desk.0.list(&list), Ok(0));
    assert!(list.push(4, [1, 1, 0, 0, 0], b""));
    assert!(list.push(3, [1000, 1, 1, 0, 0], b"rain"));
    assert!(list.push(14, [1000, 0, 0, 0, 9], b"amp"));
    assert_eq!(desk.0.list(&list), Ok(3));
    assert_eq!(desk.read(1000, 0), 9);
    assert_eq!(desk.order(), [1000]);
    let stopped = |number, place, accepted| {
        Err(ListRefused {
            refused: Refused { number, place },
            accepted,
        })
    };
    assert_eq!(desk.0.list(&list), stopped(15, 0, 0));
    let mut list = List::new();
    assert!(list.push(5, [1000, 0, 0, 0, 0], b""));
    assert!(list.push(14, [1000, 0, 0, 0, 8], b"amp"));
    assert!(list.push(5, [1, 0, 0, 0, 0], b""));
    // The first stays done, and the third is not tried.
    assert_eq!(desk.0.list(&list), stopped(17, 0, 1));
    assert_eq!(desk.order(), [0; 0]);
    desk.refused(15, 4, [1, 1, 0, 0, 0], b"");
    // A file's place, and what was made before it.
    let mut file = write(&[]).bytes;
    file.push(0);
    let mut list = List::new();
    assert!(list.push(4, [2, 1, 0, 0, 0], b""));
    assert!(list.push(1, [0; 5], &file));
    assert_eq!(desk.0.list(&list), stopped(11, 10, 1));
    // A query is found before anything is done.
    let mut list = List::new();
    assert!(list.push(5, [2, 0, 0, 0, 0], b""));
    assert!(list.push(26, [0; 5], b""));
    assert_eq!(desk.0.list(&list), stopped(34, 0, 0));
    desk.done(5, [2, 0, 0, 0, 0], b"");
    // So is a recall, which takes a store too. One that is no command comes before.
    let mut list = List::new();
    assert!(list.push(RECALL, [1, 2, 0, 0, 0], b"rain"));
    assert_eq!(desk.0.list(&list), stopped(34, 0, 0));
    assert!(list.push(29, [0; 5], b""));
    assert_eq!(desk.0.list(&list), stopped(255, 0, 0));
}
