//! Safe functions over the proved engine. An engine lives in two lent runs, which docs/LAYOUT.md
//! describes: words, and bytes called the arena.

pub mod settings;
mod why;

pub use why::Reason;

/// The exported functions of the Rattle crate `engine`. A slice passes as pointer and length.
mod proved {
    extern "C" {
        pub fn engine_words() -> u64;
        pub fn engine_arena() -> u64;
        pub fn engine_fresh(
            words: *mut u32,
            words_length: usize,
            arena: *mut u8,
            arena_length: usize,
        ) -> u32;
        pub fn engine_apply(
            op: u32,
            a: u32,
            b: u32,
            c: u32,
            d: u32,
            e: u32,
            bytes: *const u8,
            bytes_length: usize,
            words: *mut u32,
            words_length: usize,
            arena: *mut u8,
            arena_length: usize,
            reply: *mut u8,
            reply_length: usize,
        ) -> u64;
        pub fn engine_message(
            message: *const u8,
            message_length: usize,
            words: *mut u32,
            words_length: usize,
            arena: *mut u8,
            arena_length: usize,
            reply: *mut u8,
            reply_length: usize,
        ) -> u64;
        pub fn engine_list(
            items: *const u32,
            items_length: usize,
            bytes: *const u8,
            bytes_length: usize,
            words: *mut u32,
            words_length: usize,
            arena: *mut u8,
            arena_length: usize,
        ) -> u64;
        pub fn engine_why(
            number: u32,
            words: *const u32,
            words_length: usize,
            arena: *const u8,
            arena_length: usize,
        ) -> u64;
        pub fn settings_save(
            node: u32,
            words: *const u32,
            words_length: usize,
            arena: *const u8,
            arena_length: usize,
            store: *mut u8,
            store_length: usize,
        ) -> u64;
        pub fn settings_recall(
            name: *const u8,
            name_length: usize,
            version: u32,
            node: u32,
            store: *const u8,
            store_length: usize,
            words: *mut u32,
            words_length: usize,
            arena: *const u8,
            arena_length: usize,
        ) -> u32;
        pub fn settings_drop(
            name: *const u8,
            name_length: usize,
            version: u32,
            store: *mut u8,
            store_length: usize,
        ) -> u32;
        pub fn message_write(
            op: u32,
            a: u32,
            b: u32,
            c: u32,
            d: u32,
            e: u32,
            bytes: *const u8,
            bytes_length: usize,
            out: *mut u8,
            out_length: usize,
        ) -> u64;
    }
}

/// The answer to an `op` that is no command's, and to a value that is marked neither as a float (0)
/// nor as an integer (1). It comes before every refusal, and nothing changes.
pub const UNKNOWN: u64 = 255;

/// How many words an engine takes.
pub fn words() -> usize {
    // SAFETY: it takes nothing.
    unsafe { proved::engine_words() as usize }
}

/// How many bytes its arena takes.
pub fn arena() -> usize {
    // SAFETY: as above.
    unsafe { proved::engine_arena() as usize }
}

/// Makes a fresh engine of the two runs, or refuses their sizes. Answers 0 or the refusal.
pub fn fresh(words: &mut [u32], arena: &mut [u8]) -> u32 {
    // SAFETY: each pointer and length are those of one slice, lent until the call returns.
    unsafe {
        proved::engine_fresh(
            words.as_mut_ptr(),
            words.len(),
            arena.as_mut_ptr(),
            arena.len(),
        )
    }
}

/// Does a command, or refuses it and changes nothing. Answers the refusal's number, or 0, and 256
/// times the place (refusals 2 to 11) or the length that was written (queries and export).
pub fn apply(
    op: u32,
    numbers: [u32; 5],
    bytes: &[u8],
    words: &mut [u32],
    arena: &mut [u8],
    reply: &mut [u8],
) -> u64 {
    let [a, b, c, d, e] = numbers;
    // SAFETY: as above.
    unsafe {
        proved::engine_apply(
            op,
            a,
            b,
            c,
            d,
            e,
            bytes.as_ptr(),
            bytes.len(),
            words.as_mut_ptr(),
            words.len(),
            arena.as_mut_ptr(),
            arena.len(),
            reply.as_mut_ptr(),
            reply.len(),
        )
    }
}

/// Does the command that an OSC message is, or refuses it and changes nothing: with 1, then with 26
/// where it is malformed and with 27 where no command has its address and tags, then as `apply`, which
/// it answers like. A place counts from the file's first byte.
pub fn message(message: &[u8], words: &mut [u32], arena: &mut [u8], reply: &mut [u8]) -> u64 {
    // SAFETY: as above.
    unsafe {
        proved::engine_message(
            message.as_ptr(),
            message.len(),
            words.as_mut_ptr(),
            words.len(),
            arena.as_mut_ptr(),
            arena.len(),
            reply.as_mut_ptr(),
            reply.len(),
        )
    }
}

/// Does the commands of a list one by one, up to the first that is refused; those before it stay done.
/// An item is twelve words: the command's kind and five numbers as `apply` takes them, where its part
/// of `bytes` starts, that part's length, and four that are 0. Answers the refusal's number, or 0, plus
/// 256 times how many commands were accepted, plus 2^24 times the place (refusals 2 to 11). What is no
/// list is `UNKNOWN`, then a state is refused with 1, then with 34 a list of more than 512 commands or
/// with one that replies or a recall; then nothing changes.
pub fn list(items: &[u32], bytes: &[u8], words: &mut [u32], arena: &mut [u8]) -> u64 {
    // SAFETY: as above.
    unsafe {
        proved::engine_list(
            items.as_ptr(),
            items.len(),
            bytes.as_ptr(),
            bytes.len(),
            words.as_mut_ptr(),
            words.len(),
            arena.as_mut_ptr(),
            arena.len(),
        )
    }
}

/// Why a node is silent, or where it runs; nothing changes. Answers 1 where the state is refused, else 256
/// times the reason, of these the first that is true: 1 no such node, 2 a group, 3 off by its own flag, 4 an
/// ancestor is off, 5 running; plus 2^16 times the number of the off ancestor nearest the root (4) or the
/// place in the running order, from 1 (5). -1 means the latest synth while it lives; below -1 each number
/// means its own node.
pub fn why(number: u32, words: &[u32], arena: &[u8]) -> u64 {
    // SAFETY: as above.
    unsafe {
        proved::engine_why(
            number,
            words.as_ptr(),
            words.len(),
            arena.as_ptr(),
            arena.len(),
        )
    }
}

/// Writes a command, given as `apply` takes it, as an OSC message from the first byte of `out` on. What
/// the command has no use for is not looked at. Answers 256 times the message's length, or a refusal,
/// and then nothing is written: `UNKNOWN`, then 26 for a name with a byte that is not from 1 to 127 or
/// a file over 2,147,483,647 bytes, then 27 for a command that has no address, then 24 where `out` is
/// too short.
pub fn write_message(op: u32, numbers: [u32; 5], bytes: &[u8], out: &mut [u8]) -> u64 {
    let [a, b, c, d, e] = numbers;
    // SAFETY: as above.
    unsafe {
        proved::message_write(
            op,
            a,
            b,
            c,
            d,
            e,
            bytes.as_ptr(),
            bytes.len(),
            out.as_mut_ptr(),
            out.len(),
        )
    }
}

/// A refusal: its number, and for a file (2 to 11) the place of the first byte at fault.
#[derive(Clone, Copy, Debug, PartialEq, Eq)]
pub struct Refused {
    pub number: u32,
    pub place: u64,
}

/// The parts of an answer's number.
fn unpacked(answer: u64) -> Result<usize, Refused> {
    match answer % 256 {
        0 => Ok((answer / 256) as usize),
        number => Err(Refused {
            number: number as u32,
            place: answer / 256,
        }),
    }
}

/// A list that was not done to its end: the refusal, and how many commands before it stay done.
#[derive(Clone, Copy, Debug, PartialEq, Eq)]
pub struct ListRefused {
    pub refused: Refused,
    pub accepted: usize,
}

/// Commands for one call, in order.
#[derive(Clone, Debug, Default, PartialEq, Eq)]
pub struct List {
    items: Vec<u32>,
    bytes: Vec<u8>,
}

impl List {
    pub fn new() -> List {
        List::default()
    }

    /// Adds a command, given as `apply` takes it. Answers whether there was room: all commands' bytes
    /// together are fewer than 2^32.
    pub fn push(&mut self, op: u32, numbers: [u32; 5], bytes: &[u8]) -> bool {
        let end = self.bytes.len().checked_add(bytes.len());
        if end.is_none_or(|end| u32::try_from(end).is_err()) {
            return false;
        }
        let part = [self.bytes.len(), bytes.len()].map(|number| number as u32);
        self.items.push(op);
        self.items.extend(numbers);
        self.items.extend(part);
        self.items.extend([0; 4]);
        self.bytes.extend_from_slice(bytes);
        true
    }

    /// The items and the bytes, as `list` takes them.
    pub fn lent(&self) -> (&[u32], &[u8]) {
        (&self.items, &self.bytes)
    }
}

/// An engine with runs of its own.
#[derive(Clone, Debug)]
pub struct Engine {
    words: Vec<u32>,
    arena: Vec<u8>,
}

impl Default for Engine {
    fn default() -> Engine {
        Engine::new()
    }
}

impl Engine {
    /// A fresh engine.
    pub fn new() -> Engine {
        let mut engine = Engine {
            words: vec![0; words()],
            arena: vec![0; arena()],
        };
        let refusal = fresh(&mut engine.words, &mut engine.arena);
        assert_eq!(refusal, 0, "the runs have the sizes that were asked for");
        engine
    }

    /// Does a command, or refuses it and changes nothing. Answers the length of what was written to
    /// `reply`.
    pub fn apply(
        &mut self,
        op: u32,
        numbers: [u32; 5],
        bytes: &[u8],
        reply: &mut [u8],
    ) -> Result<usize, Refused> {
        let answer = apply(op, numbers, bytes, &mut self.words, &mut self.arena, reply);
        unpacked(answer)
    }

    /// Does the command that an OSC message is, or refuses it and changes nothing. Answers as `apply`.
    pub fn message(&mut self, message: &[u8], reply: &mut [u8]) -> Result<usize, Refused> {
        let answer = self::message(message, &mut self.words, &mut self.arena, reply);
        unpacked(answer)
    }

    /// Does the commands of a list, up to the first that is refused. Answers how many they were.
    pub fn list(&mut self, list: &List) -> Result<usize, ListRefused> {
        let (items, bytes) = list.lent();
        let answer = self::list(items, bytes, &mut self.words, &mut self.arena);
        let accepted = (answer >> 8) as u16 as usize;
        match answer % 256 {
            0 => Ok(accepted),
            number => Err(ListRefused {
                refused: Refused {
                    number: number as u32,
                    place: answer >> 24,
                },
                accepted,
            }),
        }
    }

    /// Why a node is silent, or where it runs, as the function `why`.
    pub fn why(&self, number: i32) -> Result<Reason, Refused> {
        why::unpacked(why(number as u32, &self.words, &self.arena))
    }

    pub fn words(&self) -> &[u32] {
        &self.words
    }

    pub fn arena(&self) -> &[u8] {
        &self.arena
    }
}
