//! Version 1 files and their version 2 twins, loaded into two proved engines.
//!
//! Every accepted version 1 file is loaded into one engine, and its twin, which the independent side
//! widens, into another. Answers, words, arenas and exports must be the same. The seed is printed;
//! LIMUDVEK_SEED sets it.

mod common;

use common::desk::{definition, Desk};
use common::tally::{check, Tally};
use common::{seed, spread};
use engine::Engine;
use independent::files::{Kind, Known};
use independent::{twin, version, write, write_as, Definition, Random, Version, MOST_BYTES};

const LOAD: u32 = 1;
const EXPORT: u32 = 27;

/// Longer than any export.
const LONGEST: usize = 1 << 17;

#[test]
fn a_file_loads_as_its_twin_does() {
    let seed = seed();
    let tallies = spread(Kind::ALL.len(), |place| {
        let mut twins = Twins::new(seed, Kind::ALL[place].name);
        let random = Random::new(seed.wrapping_add((place as u64) << 32));
        Kind::ALL[place].each(Version::One, random, &mut |file, known| {
            twins.compare(file, known);
        });
        twins.tally
    });
    check(
        &tallies,
        &[
            ("files", 200_000),
            ("files that were loaded", 20_000),
            ("loads that found too few slots", 100),
            ("definitions that take 2,047 bytes in version 2", 100),
            ("definitions that take 2,048 bytes in version 2", 100),
        ],
    );
}

/// Two engines, one for files of version 1 and one for their twins.
struct Twins {
    seed: u64,
    kind: &'static str,
    engines: [Engine; 2],
    exports: [Vec<u8>; 2],
    tally: Tally,
}

impl Twins {
    fn new(seed: u64, kind: &'static str) -> Twins {
        Twins {
            seed,
            kind,
            engines: [Engine::new(), Engine::new()],
            exports: [vec![0; LONGEST], vec![0; LONGEST]],
            tally: Tally::default(),
        }
    }

    /// Loads an accepted version 1 file and its twin. Definitions of earlier files stay until there are
    /// too few slots.
    fn compare(&mut self, file: &[u8], known: Known) {
        self.tally.count("files", true);
        if version(file) != Ok(Version::One) {
            return;
        }
        let twin = twin(file).bytes;
        let mut answer = self.load([file, &twin]);
        if answer == 12 {
            self.tally.count("loads that found too few slots", true);
            self.engines = [Engine::new(), Engine::new()];
            answer = self.load([file, &twin]);
        }
        self.want(answer == 0, file, "an accepted file is refused");
        self.tally.count("files that were loaded", true);
        if let Known::Written(definitions, _) = known {
            for definition in definitions {
                let just = |less: usize| definition.size() == MOST_BYTES - less;
                let tally = &mut self.tally;
                tally.count("definitions that take 2,047 bytes in version 2", just(1));
                tally.count("definitions that take 2,048 bytes in version 2", just(0));
            }
        }
    }

    /// Loads a file into the one engine and another into the other, and compares them. Answers the
    /// refusal's number, or 0.
    fn load(&mut self, files: [&[u8]; 2]) -> u32 {
        let [one, other] = &mut self.engines;
        let answer = one.apply(LOAD, [0; 5], files[0], &mut []);
        let same = answer == other.apply(LOAD, [0; 5], files[1], &mut []);
        self.want(same, files[0], "the answers differ");
        let [one, other] = &mut self.engines;
        let same = one.words() == other.words() && one.arena() == other.arena();
        let length = one.apply(EXPORT, [0; 5], b"", &mut self.exports[0]);
        let alike = length == other.apply(EXPORT, [0; 5], b"", &mut self.exports[1]);
        self.want(same, files[0], "the states differ");
        let length = length.unwrap_or(0);
        let exports = length > 0 && self.exports[0][..length] == self.exports[1][..length];
        self.want(alike && exports, files[0], "the exports differ");
        answer.err().map_or(0, |refused| refused.number)
    }

    fn want(&self, holds: bool, file: &[u8], what: &str) {
        if !holds {
            let (kind, seed) = (self.kind, self.seed);
            panic!("{kind}, with LIMUDVEK_SEED={seed}: {what}, on {file:?}");
        }
    }
}

/// By hand: what a slot holds is the version 2 encoding, and nothing shows where it came from.
#[test]
fn a_slot_has_version_2() {
    let rain = definition("rain", &["amp", "fade"], &[0x3f00_0000, 0xffff_ffff]);
    let [one, two] =
        Version::ALL.map(|version| write_as(version, std::slice::from_ref(&rain)).bytes);
    assert_eq!(one.len(), two.len() - 12);
    let [mut old, mut new] = [&one, &two].map(|file| {
        let mut desk = Desk::with(&[]);
        desk.done(LOAD, [0; 5], file);
        desk
    });
    assert!(old.0.words() == new.0.words() && old.0.arena() == new.0.arena());
    assert_eq!(old.0.arena()[..two.len() - 10], two[10..]);
    assert_eq!(old.export(), two);
    // A synth of it, and a load of the other version over it.
    for desk in [&mut old, &mut new] {
        desk.synth("rain", 1000, 0);
        desk.set(1000, "fade", 7);
    }
    old.done(LOAD, [0; 5], &two);
    new.done(LOAD, [0; 5], &one);
    assert!(old.0.words() == new.0.words() && old.0.arena() == new.0.arena());
    assert_eq!([0, 1].map(|index| old.read(1000, index)), [0x3f00_0000, 7]);
}

/// The limit is on the version 2 encoding, and the place is that of the definition in the file.
#[test]
fn the_limit_is_on_the_twin() {
    for units in [0, 1, 40, 160] {
        for bytes in MOST_BYTES - 1..=MOST_BYTES + 1 {
            let mut long = Definition {
                name: b"long".to_vec(),
                units: vec![Default::default(); units],
                ..Definition::default()
            };
            Random::new(1).lengthen(&mut long, bytes);
            assert!(long.size_in(Version::One) < MOST_BYTES);
            let definitions = [definition("first", &["amp"], &[1]), long];
            let start = 10 + definitions[0].size_in(Version::One);
            let mut desk = Desk::with(&[]);
            let answer = desk.send(LOAD, [0; 5], &write_as(Version::One, &definitions).bytes);
            let answer = answer.map_err(|refused| (refused.number, refused.place));
            if bytes <= MOST_BYTES {
                assert_eq!(answer, Ok(0));
                assert_eq!(desk.export(), write(&definitions).bytes);
            } else {
                assert_eq!(answer, Err((9, start as u64)));
                assert_eq!(desk.export(), write(&[]).bytes);
            }
        }
    }
}
