//! The proved engine and the independent one side by side.

use independent::engine::packed;
use independent::{layout, leave, read_list, read_message, well_formed};
use independent::{Call, Command, Engine, Fault, Listed, Random, Reason};

/// Longer than any reply.
const LONGEST: usize = 1 << 20;

/// Both engines, and the words and bytes that the proved one is to have.
#[derive(Clone)]
pub struct Pair {
    pub words: Vec<u32>,
    pub arena: Vec<u8>,
    pub expected_words: Vec<u32>,
    pub expected_arena: Vec<u8>,
    pub model: Engine,
    /// How many commands were compared.
    pub sent: usize,
    reply: Vec<u8>,
    expected_reply: Vec<u8>,
}

impl Pair {
    /// Two engines that hold the same. The state is one that does.
    pub fn new(model: Engine, words: Vec<u32>, arena: Vec<u8>) -> Pair {
        Pair {
            expected_words: words.clone(),
            expected_arena: arena.clone(),
            words,
            arena,
            model,
            sent: 0,
            reply: vec![0; LONGEST],
            expected_reply: vec![0; LONGEST],
        }
    }

    /// Fresh engines. The proved one is made in runs full of other things.
    pub fn fresh(random: &mut Random) -> Pair {
        let words = (0..layout::WORDS).map(|_| random.bits() as u32).collect();
        let arena = (0..layout::ARENA).map(|_| random.byte()).collect();
        let mut pair = Pair::new(Engine::new(), words, arena);
        pair.renew();
        pair
    }

    /// Makes both engines fresh, whatever they hold.
    pub fn renew(&mut self) {
        self.model = Engine::new();
        (self.expected_words, self.expected_arena) = layout::state(&self.model.view());
        assert_eq!(engine::fresh(&mut self.words, &mut self.arena), 0);
        assert!(self.words == self.expected_words && self.arena == self.expected_arena);
    }

    /// Puts anything into what the state leaves open.
    pub fn shuffle(&mut self, random: &mut Random) {
        super::shuffle::shuffle(&mut self.words, &mut self.arena, random);
        self.expected_words.copy_from_slice(&self.words);
        self.expected_arena.copy_from_slice(&self.arena);
    }

    /// Sends a command to both. Answers the refusal's number, or 0, or says where they differ.
    pub fn send(&mut self, call: &Call, random: &mut Random) -> Result<u32, String> {
        let command = known(call);
        let room = self.room(command, random);
        let answer = self.compare(command, room, random.byte(), |words, arena, reply| {
            apply(call, words, arena, reply)
        })?;
        Ok((answer % 256) as u32)
    }

    /// Sends a message to both. Answers as `send`.
    pub fn message(&mut self, message: &[u8], random: &mut Random) -> Result<u32, String> {
        let command = read_message(message).map_err(|fault| packed(Err(fault)));
        let room = self.room(command, random);
        let answer = self.compare(command, room, random.byte(), |words, arena, reply| {
            engine::message(message, words, arena, reply)
        })?;
        Ok((answer % 256) as u32)
    }

    /// Sends a list to both, and its commands one by one to a second copy of the proved engine, where the
    /// list is not refused whole. Answers what all answer.
    pub fn list(&mut self, items: &[u32], bytes: &[u8]) -> Result<u64, String> {
        self.sent += 1;
        let mut copy = (self.words.clone(), self.arena.clone());
        let commands = read_list(items, bytes);
        let expected = match &commands {
            Some(commands) => {
                let (words, arena) = (&mut self.expected_words, &mut self.expected_arena);
                let listed = self.model.list(commands, |model, command| {
                    leave(Call::of(command).op, &model.view(), words, arena);
                });
                if listed.refused.is_none_or(|fault| fault.number != 34) {
                    let by_one = one_by_one(commands, &mut copy.0, &mut copy.1);
                    if by_one != listed {
                        return Err(format!("one by one {by_one:?}, expected {listed:?}"));
                    }
                }
                listed.packed()
            }
            None => engine::UNKNOWN,
        };
        let answer = engine::list(items, bytes, &mut self.words, &mut self.arena);
        if answer != expected {
            return Err(format!("answer {answer:#x}, expected {expected:#x}"));
        }
        self.compare_expected()?;
        self.compare_runs(&copy.0, &copy.1)
            .map_err(|what| format!("one by one: {what}"))?;
        Ok(answer)
    }

    /// Asks both why a number is silent. Answers what both answer.
    pub fn why(&self, number: i32) -> Result<Reason, String> {
        let reason = self.model.why(number);
        match engine::why(number as u32, &self.words, &self.arena) {
            answer if answer == reason.packed() => Ok(reason),
            answer => Err(format!("why {number}: {answer:#x}, expected {reason:?}")),
        }
    }

    /// Sends a command whose answer the paper settles.
    pub fn expect(&mut self, refusal: u32, call: &Call, random: &mut Random) -> Result<(), String> {
        match self.send(call, random) {
            Ok(answer) if answer == refusal => Ok(()),
            Ok(answer) => Err(format!("answer {answer}, by the paper {refusal}: {call:?}")),
            Err(what) => Err(format!("{what}: {call:?}")),
        }
    }

    /// Sends both a command that replies, with room for it. Answers the reply.
    pub fn ask(&mut self, call: &Call) -> Result<&[u8], String> {
        let command = known(call);
        let length = self.length(command);
        let send = |words: &mut [u32], arena: &mut [u8], reply: &mut [u8]| {
            apply(call, words, arena, reply)
        };
        match self.compare(command, length + 1, 0xa5, send)? {
            answer if answer == 256 * length as u64 => Ok(&self.reply[..length]),
            answer => Err(format!("answer {:?}, but it replies", parts(answer))),
        }
    }

    /// Sends a command to both with a reply buffer of some length, or what is none and has a settled
    /// answer. Answers what both answer.
    fn compare(
        &mut self,
        command: Result<Command, u64>,
        room: usize,
        filling: u8,
        send: impl FnOnce(&mut [u32], &mut [u8], &mut [u8]) -> u64,
    ) -> Result<u64, String> {
        self.sent += 1;
        let reply = &mut self.reply[..room];
        let expected_reply = &mut self.expected_reply[..room];
        reply.fill(filling);
        expected_reply.fill(filling);
        let expected = match command {
            Ok(command) => {
                let answer = self.model.apply(&command, expected_reply);
                if answer.is_ok() && !command.replies() {
                    let view = self.model.view();
                    leave(
                        Call::of(&command).op,
                        &view,
                        &mut self.expected_words,
                        &mut self.expected_arena,
                    );
                }
                packed(answer)
            }
            Err(answer) => answer,
        };
        let answer = send(&mut self.words, &mut self.arena, reply);
        if answer != expected {
            let (answer, expected) = (parts(answer), parts(expected));
            return Err(format!("answer {answer:?}, expected {expected:?}"));
        }
        if let Some(place) = differ(reply, expected_reply) {
            return Err(format!("reply byte {place} of {room} differs"));
        }
        self.compare_expected()?;
        Ok(answer)
    }

    /// The proved engine's runs are those that are expected.
    pub fn compare_expected(&self) -> Result<(), String> {
        self.compare_runs(&self.expected_words, &self.expected_arena)
    }

    /// The proved engine's runs are these.
    fn compare_runs(&self, words: &[u32], arena: &[u8]) -> Result<(), String> {
        if let Some(place) = differ(&self.words, words) {
            let (word, expected) = (self.words[place], words[place]);
            return Err(format!("word {place} is {word}, expected {expected}"));
        }
        match differ(&self.arena, arena) {
            Some(place) => Err(format!("arena byte {place} differs")),
            None => Ok(()),
        }
    }

    /// Sends a command that must be refused by 1, or be unknown.
    pub fn refuse(&mut self, call: &Call) -> Result<(), String> {
        let expected = known(call).map_or_else(|unknown| unknown, |_| 1);
        self.broken(expected, |words, arena, reply| {
            apply(call, words, arena, reply)
        })
    }

    /// Sends a message that must be refused by 1, whatever it is.
    pub fn refuse_message(&mut self, message: &[u8]) -> Result<(), String> {
        self.broken(1, |words, arena, reply| {
            engine::message(message, words, arena, reply)
        })
    }

    /// Sends a list that must be refused by 1, or is none.
    pub fn refuse_list(&mut self, items: &[u32], bytes: &[u8]) -> Result<(), String> {
        let expected = read_list(items, bytes).map_or(engine::UNKNOWN, |_| 1);
        self.broken(expected, |words, arena, _| {
            engine::list(items, bytes, words, arena)
        })
    }

    /// Asks why a number is silent where that must be refused by 1.
    pub fn refuse_why(&mut self, number: i32) -> Result<(), String> {
        self.broken(1, |words, arena, _| {
            engine::why(number as u32, words, arena)
        })
    }

    fn broken(
        &mut self,
        expected: u64,
        send: impl FnOnce(&mut [u32], &mut [u8], &mut [u8]) -> u64,
    ) -> Result<(), String> {
        let mut reply = [7; 300];
        let answer = send(&mut self.words, &mut self.arena, &mut reply);
        if answer != expected {
            let answer = parts(answer);
            return Err(format!("answer {answer:?}, but a rule is broken"));
        }
        let same = self.words == self.expected_words && self.arena == self.expected_arena;
        if same && reply == [7; 300] {
            Ok(())
        } else {
            Err("refused by 1, but something changed".to_string())
        }
    }

    /// How long the reply to a command is.
    fn length(&mut self, command: Result<Command, u64>) -> usize {
        match command {
            Ok(command) if command.replies() => {
                let answer = self.model.apply(&command, &mut self.expected_reply);
                answer.unwrap_or(0)
            }
            _ => 0,
        }
    }

    /// How long the reply buffer is to be: long enough, just so, or too short.
    fn room(&mut self, command: Result<Command, u64>, random: &mut Random) -> usize {
        let length = self.length(command);
        match random.below(8) {
            0 => length.saturating_sub(1),
            1 if length > 0 => random.below(length),
            2 => length,
            _ => length + random.below(40),
        }
    }

    /// Takes the state as it is, where something else changed it. Answers whether it is well formed; then
    /// the model holds what it holds.
    pub fn adopt(&mut self) -> bool {
        self.expected_words.copy_from_slice(&self.words);
        self.expected_arena.copy_from_slice(&self.arena);
        let formed = well_formed(&self.words, &self.arena);
        if formed {
            self.model = Engine::of(&layout::view(&self.words, &self.arena));
        }
        formed
    }

    /// What the state holds is what the model holds.
    pub fn compare_views(&self) -> Result<(), String> {
        if layout::view(&self.words, &self.arena) == self.model.view() {
            Ok(())
        } else {
            Err("the views differ".to_string())
        }
    }
}

/// The command of a call, or the answer to one that is unknown.
fn known(call: &Call) -> Result<Command<'_>, u64> {
    call.command().ok_or(engine::UNKNOWN)
}

/// The proved engine's answer to a command.
fn apply(call: &Call, words: &mut [u32], arena: &mut [u8], reply: &mut [u8]) -> u64 {
    engine::apply(call.op, call.numbers, &call.bytes, words, arena, reply)
}

/// Sends commands one by one, up to the first that is refused.
fn one_by_one(commands: &[Command], words: &mut [u32], arena: &mut [u8]) -> Listed {
    for (accepted, command) in commands.iter().enumerate() {
        let answer = apply(&Call::of(command), words, arena, &mut []);
        if answer != 0 {
            let (number, place) = parts(answer);
            let fault = Fault {
                number: number as u32,
                place,
            };
            return Listed {
                accepted,
                refused: Some(fault),
            };
        }
    }
    Listed {
        accepted: commands.len(),
        refused: None,
    }
}

/// An answer's refusal, and its place or length.
fn parts(answer: u64) -> (u64, u64) {
    (answer % 256, answer / 256)
}

/// The first place where two runs of one length differ.
fn differ<T: PartialEq>(one: &[T], other: &[T]) -> Option<usize> {
    if one == other {
        return None;
    }
    one.iter().zip(other).position(|(one, other)| one != other)
}
