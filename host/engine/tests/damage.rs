//! Damaged states: refusal 1 is given exactly where the independent checker finds a rule broken, and
//! changes nothing; else both engines go on alike from what the damaged state holds.

mod common;

use common::damage::{hurt, reach};
use common::pair::Pair;
use common::tally::{self, Tally};
use common::{say, seed, spread};
use independent::engine::MOST_NODES;
use independent::layout::{ARENA, COUNT, INDEX, WORDS};
use independent::{Call, Random};

const STATES: usize = 420;
const DAMAGES: usize = 500;

#[test]
fn refusal_1_and_the_checker_agree() {
    let seed = seed();
    let [mut refused, mut formed] = [0; 2];
    for own in spread(STATES, |place| damages(seed, place)) {
        refused += own[0];
        formed += own[1];
    }
    say(&format!(
        "{refused} damaged states refused, {formed} still well formed"
    ));
    assert!(refused + formed >= 200_000);
    assert!(refused >= 60_000 && formed >= 20_000);
}

/// Damages one state in many ways. Answers how many were refused, and how many not.
fn damages(seed: u64, place: usize) -> [usize; 2] {
    let mut random = Random::new(seed.wrapping_add((place as u64) << 32));
    let (mut pair, mut commands) = reach(&mut random, place);
    let model = pair.model.clone();
    let words = pair.words.clone();
    let arena = pair.arena.clone();
    let mut counts = [0; 2];
    for at in 0..DAMAGES {
        let times = random.one_of(&[1, 1, 1, 2, 2, 3, 4]);
        hurt(times, &mut random, &mut pair.words, &mut pair.arena);
        let call = match random.below(3) {
            0 => commands.next(&model),
            1 => commands.kind(25, &model),
            _ => commands.kind(26, &model),
        };
        match send(&mut pair, &call, &mut random) {
            Ok(formed) => counts[usize::from(formed)] += 1,
            Err(what) => {
                panic!("LIMUDVEK_SEED={seed}, state {place}, damage {at}: {what}: {call:?}")
            }
        }
        pair.words.copy_from_slice(&words);
        pair.arena.copy_from_slice(&arena);
    }
    counts
}

/// Sends a command to a damaged state. Answers whether the state is still well formed.
fn send(pair: &mut Pair, call: &Call, random: &mut Random) -> Result<bool, String> {
    if pair.adopt() {
        pair.send(call, random).map(|_| true)
    } else {
        pair.refuse(call).map(|_| false)
    }
}

/// A way to change the words of the index, of which so many are entries, two at least.
type Way = fn(&mut Random, &mut [u32], usize);

/// Ways that break its rule, and one that does not.
const WAYS: [(&str, Way); 6] = [
    ("two entries swapped", |random, index, count| {
        let (one, other) = two(random, count);
        index.swap(one, other);
    }),
    (
        "an entry that is no node's place",
        |random, index, count| {
            let past = (count + random.below(2 * MOST_NODES)) as u32;
            let no_place = [count as u32, past, 1 << 16, 1 << 31 | past, u32::MAX];
            index[random.below(count)] = random.one_of(&no_place);
        },
    ),
    ("an entry at another position", |random, index, count| {
        let (one, other) = two(random, count);
        if one < other {
            index[one..=other].rotate_left(1);
        } else {
            index[other..=one].rotate_right(1);
        }
    }),
    ("an entry missing", |random, index, count| {
        let gone = random.below(count - 1);
        index.copy_within(gone + 1..count, gone);
        if random.below(2) == 0 {
            index[count - 1] = index[count % MOST_NODES];
        }
    }),
    ("an entry twice", |random, index, count| {
        let (one, other) = two(random, count);
        index[one] = index[other];
    }),
    (PAST, |random, index, count| {
        for word in &mut index[count..] {
            *word = match random.below(2) {
                0 => random.below(count) as u32,
                _ => random.bits() as u32,
            };
        }
    }),
];
const PAST: &str = "words past the entries";

/// Two places below a count.
fn two(random: &mut Random, count: usize) -> (usize, usize) {
    let one = random.below(count);
    (one, (one + 1 + random.below(count - 1)) % count)
}

/// Each way to damage the index is refused, and what is past it is not looked at.
#[test]
fn the_index_in_every_way() {
    let seed = seed();
    let tallies = spread(STATES / 4, |place| {
        let mut random = Random::new(seed.wrapping_add((place as u64) << 32));
        let (mut pair, mut commands) = reach(&mut random, place);
        let words = pair.words.clone();
        let arena = pair.arena.clone();
        let model = pair.model.clone();
        let count = words[COUNT] as usize;
        let mut tally = Tally::default();
        for (what, way) in WAYS.into_iter().filter(|_| count > 1) {
            for _ in 0..20 {
                way(&mut random, &mut pair.words[INDEX..], count);
                tally.count(what, pair.words != words);
                let call = commands.next(&model);
                let formed = send(&mut pair, &call, &mut random);
                assert_eq!(formed, Ok(what == PAST), "{what}, state {place}: {call:?}");
                pair.words.copy_from_slice(&words);
                pair.arena.copy_from_slice(&arena);
            }
        }
        tally
    });
    let wanted = WAYS.map(|(what, _)| (what, 600));
    tally::check(&tallies, &wanted);
}

/// Runs of other lengths are refused whatever they hold, by every command.
#[test]
fn wrong_sizes_are_refused() {
    let mut random = Random::new(seed());
    let (pair, _) = reach(&mut random, 0);
    let lengths = |right: usize| [0, 1, right - 1, right, right + 1, 2 * right];
    for words_length in lengths(WORDS) {
        for arena_length in lengths(ARENA) {
            if (words_length, arena_length) == (WORDS, ARENA) {
                continue;
            }
            let mut words = pair.words.clone();
            let mut arena = pair.arena.clone();
            words.resize(words_length, 0);
            arena.resize(arena_length, 0);
            let (old_words, old_arena) = (words.clone(), arena.clone());
            for op in 0..=28 {
                let mut reply = [7; 200];
                let file = b"SCgf\0\0\0\x02\0\0";
                let answer = engine::apply(op, [0; 5], file, &mut words, &mut arena, &mut reply);
                let expected = match op {
                    1..=27 => 1,
                    _ => engine::UNKNOWN,
                };
                assert_eq!(answer, expected, "op {op}, {words_length} {arena_length}");
                assert!(words == old_words && arena == old_arena && reply == [7; 200]);
            }
            assert_eq!(engine::fresh(&mut words, &mut arena), 1);
            assert!(words == old_words && arena == old_arena);
        }
    }
    assert_eq!((engine::words(), engine::arena()), (WORDS, ARENA));
}
