//! The proved reader against the independent one, on random files of both versions, valid and damaged.
//!
//! Both must give the same number and place. Where the writer's map of the fields tells the answer
//! too, all three must agree. The twin of a version 1 file, widened field by field up to its fault,
//! must be refused with the same number; and what the proved library writes of an accepted file must be
//! its twin. The seed is printed; LIMUDVEK_SEED sets it.

use independent::files::{Kind, Known};
use independent::{read, twin, version, Definition, Fault, Random, Twin, Version, MOST_BYTES};
use std::io::Write;
use std::sync::atomic::{AtomicUsize, Ordering};
use std::sync::Mutex;
use std::thread;
use std::time::{SystemTime, UNIX_EPOCH};

#[test]
fn both_readers_agree() {
    let seed = seed();
    say(&format!("LIMUDVEK_SEED={seed}"));
    let kinds = Kind::ALL.iter();
    let works = kinds.flat_map(|kind| Version::ALL.map(|version| (version, kind)));
    let works: Vec<(Version, &Kind)> = works.collect();
    let next = AtomicUsize::new(0);
    let tallies = Mutex::new(Vec::new());
    let workers = thread::available_parallelism().map_or(1, |count| count.get());
    thread::scope(|scope| {
        for _ in 0..workers {
            scope.spawn(|| loop {
                let place = next.fetch_add(1, Ordering::Relaxed);
                let Some(&(version, kind)) = works.get(place) else {
                    break;
                };
                let tally = judged(version, kind, seed, place as u64);
                let mut tallies = tallies.lock().expect("no work failed");
                tallies.push((version, tally));
            });
        }
    });
    let tallies = tallies.into_inner().expect("no work failed");
    for version in Version::ALL {
        let own = tallies.iter().filter(|(of, _)| *of == version);
        enough(version, &Tally::sum(own.map(|(_, tally)| tally)));
    }
}

/// Set by the environment, else from the clock.
fn seed() -> u64 {
    match std::env::var("LIMUDVEK_SEED") {
        Ok(text) => text.parse().expect("LIMUDVEK_SEED is a number"),
        Err(_) => {
            let time = SystemTime::now().duration_since(UNIX_EPOCH);
            time.expect("the clock is past 1970").as_micros() as u64
        }
    }
}

/// Prints a line that the test's success does not hide.
fn say(line: &str) {
    writeln!(std::io::stderr(), "{line}").expect("standard error is open");
}

/// How often each answer came, and what was near the limit.
#[derive(Default)]
struct Tally {
    answers: [usize; 12],
    /// Definitions that take at most 2,048 bytes in the file's version, and in version 2 so many: 2,047,
    /// 2,048, 2,049 and more.
    near: [usize; 4],
}

impl Tally {
    fn sum<'a>(tallies: impl Iterator<Item = &'a Tally>) -> Tally {
        let mut sum = Tally::default();
        for tally in tallies {
            let counts = sum.answers.iter_mut().chain(&mut sum.near);
            for (total, count) in counts.zip(tally.answers.iter().chain(&tally.near)) {
                *total += count;
            }
        }
        sum
    }

    fn files(&self) -> usize {
        self.answers.iter().sum()
    }

    fn count(&mut self, version: Version, known: Known, answer: Option<Fault>) {
        let number = answer.map_or(0, |fault| fault.number);
        self.answers[number as usize] += 1;
        if let (Known::Written(definitions, _), 0 | 9) = (known, number) {
            for definition in definitions {
                let more = (definition.size() + 2).checked_sub(MOST_BYTES + 1);
                if let (Some(more), true) = (more, definition.size_in(version) <= MOST_BYTES) {
                    self.near[more.min(3)] += 1;
                }
            }
        }
    }
}

/// Says what was tried of a version, and fails where that is too little.
fn enough(version: Version, tally: &Tally) {
    let field = version.field();
    let (files, accepted) = (tally.files(), tally.answers[0]);
    say(&format!(
        "version {field}: {files} files, {accepted} accepted"
    ));
    for (number, count) in tally.answers.iter().enumerate().skip(2) {
        say(&format!("version {field}, refusal {number}: {count} files"));
    }
    assert!(files >= 200_000, "only {files} files");
    assert!(accepted >= 10_000, "only {accepted} accepted");
    for (number, &count) in tally.answers.iter().enumerate().skip(2) {
        assert!(count >= 100, "refusal {number} in {count} files only");
    }
    let [under, at, over, more] = tally.near;
    say(&format!(
        "version {field}, within the limit there, in version 2 just under it {under}, at it {at}, just over it {over}, more {more}"
    ));
    assert!(under >= 100 && at >= 100, "{under} and {at} only");
    if version == Version::One {
        assert!(over >= 100 && more >= 100, "{over} and {more} only");
    }
}

/// Both readers on each file of a kind.
fn judged(version: Version, kind: &Kind, seed: u64, place: u64) -> Tally {
    let seeds = seed.wrapping_add(place.wrapping_mul(0x0123_4567_89ab_cdef));
    let mut judge = Judge {
        name: format!("version {}, {}", version.field(), kind.name),
        seed,
        version,
        random: Random::new(!seeds),
        tally: Tally::default(),
        out: vec![0; synthdef::LONGEST + 100],
    };
    kind.each(version, Random::new(seeds), &mut |file, known| {
        judge.judge(file, known);
    });
    say(&format!("{}: {} files", judge.name, judge.tally.files()));
    judge.tally
}

/// What every file of one kind is put to.
struct Judge {
    name: String,
    seed: u64,
    version: Version,
    random: Random,
    tally: Tally,
    out: Vec<u8>,
}

impl Judge {
    fn judge(&mut self, file: &[u8], known: Known) {
        let answer = version(file);
        let fault = answer.err();
        let proved = proved(file);
        if proved != fault {
            let what = format!("proved {proved:?}, independent {fault:?}");
            self.fail(file, &what);
        }
        if let Known::Answer(known) | Known::Written(_, known) = known {
            if known.err() != fault {
                let what = format!("both {fault:?}, but by the fields {known:?}");
                self.fail(file, &what);
            }
        }
        let field = answer.map_or(0, Version::field);
        if synthdef::version(file) != field as u32 {
            self.fail(file, &format!("the version is not {field}"));
        }
        let twin = twin(file);
        match answer {
            Ok(_) => self.accepted(file, known, &twin),
            Err(_) => self.refused(file, &twin),
        }
        self.tally.count(self.version, known, fault);
    }

    fn accepted(&mut self, file: &[u8], known: Known, twin: &Twin) {
        if let Known::Written(definitions, _) = known {
            if read(file).as_deref() != Ok(definitions) {
                self.fail(file, "other definitions were written");
            }
            self.names(file, definitions);
        }
        let length = twin.bytes.len();
        if proved(&twin.bytes).is_some() {
            self.fail(file, "its twin is refused");
        }
        // The whole twin, and what lies behind it stays.
        let room = length + self.random.below(100);
        if self.widen(file, room) != length || self.out[..length] != twin.bytes {
            self.fail(file, "it is not widened to its twin");
        }
        if self.out[length..room].iter().any(|&byte| byte != FILLING) {
            self.fail(file, "more than the twin is written");
        }
        let room = match self.random.below(2) {
            0 => length - 1,
            _ => self.random.below(length),
        };
        self.unwidened(file, room);
    }

    /// The names of an accepted file, each a part of it.
    fn names(&mut self, file: &[u8], definitions: &[Definition]) {
        let count = definitions.len() as u32;
        let same = synthdef::count(file) == count
            && synthdef::names(file).eq(definitions.iter().map(|d| d.name.as_slice()))
            && [count, count + 1, u32::MAX]
                .iter()
                .all(|&index| synthdef::name(file, index).is_none());
        if !same {
            self.fail(file, "the names differ");
        }
    }

    fn refused(&mut self, file: &[u8], twin: &Twin) {
        if synthdef::count(file) != 0 || synthdef::name(file, 0).is_some() {
            self.fail(file, "refused, but with names");
        }
        let room = self.random.below(file.len().min(500) + 100);
        self.unwidened(file, room);
        let proved = proved(&twin.bytes);
        if proved != twin.fault {
            let what = format!("its twin is refused by {proved:?}, not by {:?}", twin.fault);
            self.fail(file, &what);
        }
    }

    /// Nothing is written to so much room.
    fn unwidened(&mut self, file: &[u8], room: usize) {
        let length = self.widen(file, room);
        if length != 0 || self.out[..room].iter().any(|&byte| byte != FILLING) {
            self.fail(
                file,
                &format!("widened to {length} bytes where {room} are lent"),
            );
        }
    }

    fn widen(&mut self, file: &[u8], room: usize) -> usize {
        let out = &mut self.out[..room];
        out.fill(FILLING);
        synthdef::widen(file, out)
    }

    fn fail(&self, file: &[u8], what: &str) -> ! {
        let bytes: String = file.iter().map(|byte| format!("{byte:02x}")).collect();
        panic!(
            "{}, with LIMUDVEK_SEED={}: {what}, on {} bytes: {bytes}",
            self.name,
            self.seed,
            file.len()
        );
    }
}

/// What the lent bytes hold before.
const FILLING: u8 = 0xa5;

/// The proved reader's refusal.
fn proved(file: &[u8]) -> Option<Fault> {
    let refused = synthdef::check(file).err()?;
    Some(Fault {
        number: refused.number,
        place: refused.place,
    })
}
