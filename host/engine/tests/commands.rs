//! The proved engine against the independent one, on random commands.
//!
//! After each command the answer, the whole reply buffer, and every word and byte of the state must
//! be the same. The seed is printed; LIMUDVEK_SEED sets it.

mod common;

use common::pair::Pair;
use common::{say, seed, spread};
use independent::engine::{Commands, Theme, MOST_NODES};
use independent::layout::NEXT;
use independent::{layout, Call, Engine, Random};
use std::collections::BTreeMap;

const SEQUENCES: usize = 270;
const LONGEST: usize = 2000;

const UNKNOWN: u32 = engine::UNKNOWN as u32;

/// What came how often.
#[derive(Default)]
struct Tally {
    /// How often each answer came.
    answers: BTreeMap<u32, usize>,
    /// New nodes by action 4 where 256 live.
    replaced_when_full: usize,
    /// Controls set by name in a synth whose definition's name means another one by now.
    old_synths_set: usize,
}

impl Tally {
    fn count(&mut self, call: &Call, nodes: usize, old_synth: bool, answer: u32) {
        *self.answers.entry(answer).or_default() += 1;
        if answer == 0 {
            let replaces = matches!(call.op, 3 | 4) && call.numbers[1] == 4;
            self.replaced_when_full += usize::from(replaces && nodes == MOST_NODES);
            let by_name = matches!(call.op, 14 | 16 | 18);
            self.old_synths_set += usize::from(by_name && old_synth);
        }
    }

    fn add(&mut self, other: &Tally) {
        for (answer, count) in &other.answers {
            *self.answers.entry(*answer).or_default() += count;
        }
        self.replaced_when_full += other.replaced_when_full;
        self.old_synths_set += other.old_synths_set;
    }
}

#[test]
fn both_engines_agree() {
    let seed = seed();
    let mut tally = Tally::default();
    for own in spread(SEQUENCES, |place| sequence(seed, place)) {
        tally.add(&own);
    }
    let total: usize = tally.answers.values().sum();
    let accepted = tally.answers[&0];
    say(&format!("{total} commands, {accepted} accepted"));
    for (number, count) in tally.answers.iter().skip(1) {
        match number {
            &UNKNOWN => say(&format!("unknown: {count} commands")),
            _ => say(&format!("refusal {number}: {count} commands")),
        }
    }
    let (full, old) = (tally.replaced_when_full, tally.old_synths_set);
    say(&format!("action 4 with 256 nodes: {full} commands"));
    say(&format!("old synths set by name: {old} commands"));
    assert!(total >= 300_000, "only {total} commands");
    assert!(full >= 100 && old >= 300, "{full} and {old} only");
    assert!(accepted >= total * 2 / 5, "only {accepted} accepted");
    assert!(accepted <= total * 3 / 4, "as many as {accepted} accepted");
    let count = |number: u32| tally.answers.get(&number).copied().unwrap_or(0);
    assert_eq!(count(1), 0);
    for number in (12..=25).chain([28, UNKNOWN]) {
        let count = count(number);
        assert!(count >= 300, "refusal {number} of {count} commands only");
    }
}

/// One sequence from a fresh engine, or from a state that holds something already.
fn sequence(seed: u64, place: usize) -> Tally {
    let mut random = Random::new(seed.wrapping_add((place as u64) << 32));
    let theme = Theme::ALL[place % Theme::ALL.len()];
    let mut commands = Commands::new(Random::new(random.bits()), theme);
    let mut pair = Pair::fresh(&mut random);
    match random.below(4) {
        // Few generated numbers are left.
        0 => {
            let left = random.one_of(&[0, 1, 2, 10, 40]);
            let next = i64::from(i32::MIN) + left - 1;
            pair.model.set_next(i32::try_from(next).ok());
            pair.words[NEXT] = next as u32;
            pair.expected_words[NEXT] = next as u32;
        }
        1 => {
            let mut model = Engine::new();
            for _ in 0..random.below(600) {
                if let Some(command) = commands.next(&model).command() {
                    let _ = model.apply(&command, &mut []);
                }
            }
            let (words, arena) = layout::state(&model.view());
            pair = Pair::new(model, words, arena);
            pair.shuffle(&mut random);
        }
        _ => {}
    }
    let length = match random.below(3) {
        0 => 1 + random.below(LONGEST),
        1 => LONGEST / 2,
        _ => LONGEST,
    };
    let mut tally = Tally::default();
    for at in 0..length {
        let call = commands.next(&pair.model);
        let fail = |what: String| -> ! {
            panic!("LIMUDVEK_SEED={seed}, sequence {place} ({theme:?}), command {at}: {what}: {call:?}")
        };
        let nodes = pair.model.nodes();
        let old_synth = pair.model.is_old_synth(call.numbers[0] as i32);
        match pair.send(&call, &mut random) {
            Ok(answer) => tally.count(&call, nodes, old_synth, answer),
            Err(what) => fail(what),
        }
        if at % 200 == 0 || at + 1 == length {
            pair.compare_views().unwrap_or_else(|what| fail(what));
        }
    }
    tally
}
