//! What a script is played on.

use super::line::Call;
use engine::{List, ListRefused, Reason, Refused};

/// All of a message but its name or its file takes less.
const FRAME: usize = 64;

/// An engine to send commands to.
pub trait Applies {
    /// Does a command, given as the exported function `engine_apply` takes it, and answers alike.
    fn apply(&mut self, op: u32, numbers: [u32; 5], bytes: &[u8], reply: &mut [u8]) -> u64;

    /// Does the command that a message is, and answers as `engine_message`.
    fn message(&mut self, message: &[u8], reply: &mut [u8]) -> u64;

    /// Does the commands of a list, up to the first that is refused, as `engine_list`.
    fn list(&mut self, list: &List) -> Result<usize, ListRefused>;

    /// Why a node is silent, or where it runs, as `engine_why`.
    fn why(&self, number: i32) -> Result<Reason, Refused>;

    /// Saves a synth's settings to a store, as `settings_save`. Answers the version.
    fn save(&self, node: i32, store: &mut [u8]) -> Result<u32, Refused>;

    /// Sets a synth's controls as a version has them, as `settings_recall`.
    fn recall(&mut self, name: &[u8], version: u32, node: i32, store: &[u8])
        -> Result<(), Refused>;

    /// Takes a version out of a store, and answers as `settings_drop`.
    fn drop_version(name: &[u8], version: u32, store: &mut [u8]) -> u32;

    /// Writes a command as a message, and answers as `message_write`.
    fn write(op: u32, numbers: [u32; 5], bytes: &[u8], out: &mut [u8]) -> u64;

    /// The words of its state, which docs/LAYOUT.md describes.
    fn words(&self) -> &[u32];
}

impl Applies for engine::Engine {
    fn apply(&mut self, op: u32, numbers: [u32; 5], bytes: &[u8], reply: &mut [u8]) -> u64 {
        packed(self.apply(op, numbers, bytes, reply))
    }

    fn message(&mut self, message: &[u8], reply: &mut [u8]) -> u64 {
        packed(self.message(message, reply))
    }

    fn list(&mut self, list: &List) -> Result<usize, ListRefused> {
        self.list(list)
    }

    fn why(&self, number: i32) -> Result<Reason, Refused> {
        self.why(number)
    }

    fn save(&self, node: i32, store: &mut [u8]) -> Result<u32, Refused> {
        self.save(node, store)
    }

    fn recall(
        &mut self,
        name: &[u8],
        version: u32,
        node: i32,
        store: &[u8],
    ) -> Result<(), Refused> {
        self.recall(name, version, node, store)
    }

    fn drop_version(name: &[u8], version: u32, store: &mut [u8]) -> u32 {
        engine::settings::drop_version(name, version, store)
    }

    fn write(op: u32, numbers: [u32; 5], bytes: &[u8], out: &mut [u8]) -> u64 {
        engine::write_message(op, numbers, bytes, out)
    }

    fn words(&self) -> &[u32] {
        self.words()
    }
}

fn packed(answer: Result<usize, Refused>) -> u64 {
    match answer {
        Ok(length) => 256 * length as u64,
        Err(refused) => u64::from(refused.number) + 256 * refused.place,
    }
}

/// The message of a command, or why it can't be written.
pub(crate) fn written<D: Applies>(call: &Call) -> Result<Vec<u8>, u32> {
    let mut message = vec![0; call.bytes.len() + FRAME];
    let answer = D::write(call.op, call.numbers, &call.bytes, &mut message);
    match answer % 256 {
        0 => {
            message.truncate((answer / 256) as usize);
            Ok(message)
        }
        number => Err(number as u32),
    }
}
