//! What the tests of scripts and of messages share. Each takes what it needs of it.
#![allow(dead_code)]

use cli::play::Applies;
use engine::{List, ListRefused, Reason, Refused};
use independent::engine::packed;
use independent::Reason as Plain;
use independent::{drop_version, layout, read_list, read_message, write_message};
use independent::{Call, Command as Plainly, Engine, Fault};
use std::io::Write;
use std::path::{Path, PathBuf};
use std::process::{Command, Stdio};

pub const PROGRAM: &str = env!("CARGO_BIN_EXE_limudvek");

/// The independent engine, with its state as words.
pub struct Independent {
    engine: Engine,
    words: Vec<u32>,
}

impl Independent {
    pub fn new() -> Independent {
        let engine = Engine::new();
        let (words, _) = layout::state(&engine.view());
        Independent { engine, words }
    }
}

impl Applies for Independent {
    fn apply(&mut self, op: u32, numbers: [u32; 5], bytes: &[u8], reply: &mut [u8]) -> u64 {
        let call = Call {
            op,
            numbers,
            bytes: bytes.to_vec(),
        };
        let command = call.command().expect("a script has known commands only");
        let answer = self.engine.apply(&command, reply);
        (self.words, _) = layout::state(&self.engine.view());
        packed(answer)
    }

    fn message(&mut self, message: &[u8], reply: &mut [u8]) -> u64 {
        let answer = read_message(message).and_then(|command| self.engine.apply(&command, reply));
        (self.words, _) = layout::state(&self.engine.view());
        packed(answer)
    }

    fn list(&mut self, list: &List) -> Result<usize, ListRefused> {
        let (items, bytes) = list.lent();
        let commands = read_list(items, bytes).expect("a script has known commands only");
        let listed = self.engine.list(&commands, |_, _| {});
        (self.words, _) = layout::state(&self.engine.view());
        match listed.refused {
            None => Ok(listed.accepted),
            Some(fault) => Err(ListRefused {
                refused: refused(fault),
                accepted: listed.accepted,
            }),
        }
    }

    fn why(&self, number: i32) -> Result<Reason, Refused> {
        Ok(match self.engine.why(number) {
            Plain::NoSuchNode => Reason::NoSuchNode,
            Plain::Group => Reason::Group,
            Plain::Off => Reason::Off,
            Plain::AncestorOff(number) => Reason::AncestorOff(number),
            Plain::Running(place) => Reason::Running(place as u32),
        })
    }

    fn save(&self, node: i32, store: &mut [u8]) -> Result<u32, Refused> {
        self.engine.save(node, store).map_err(refused)
    }

    fn recall(
        &mut self,
        name: &[u8],
        version: u32,
        node: i32,
        store: &[u8],
    ) -> Result<(), Refused> {
        let recalled = self.engine.recall(name, version, node, store);
        (self.words, _) = layout::state(&self.engine.view());
        recalled.map_err(refused)
    }

    fn drop_version(name: &[u8], version: u32, store: &mut [u8]) -> u32 {
        let dropped = drop_version(name, version, store);
        dropped.err().map_or(0, |fault| fault.number)
    }

    fn write(op: u32, numbers: [u32; 5], bytes: &[u8], out: &mut [u8]) -> u64 {
        let command = Plainly::of(op, numbers, bytes).expect("a script has known commands only");
        packed(write_message(&command, out))
    }

    fn words(&self) -> &[u32] {
        &self.words
    }
}

fn refused(fault: Fault) -> Refused {
    Refused {
        number: fault.number,
        place: fault.place,
    }
}

pub fn examples() -> PathBuf {
    Path::new(env!("CARGO_MANIFEST_DIR")).join("../../examples")
}

/// Runs the program beside the examples, with some standard input. Answers the exit status and both
/// outputs.
pub fn program_on(words: &[&str], input: &[u8]) -> (i32, Vec<u8>, String) {
    let mut child = Command::new(PROGRAM)
        .args(words)
        .current_dir(examples())
        .stdin(Stdio::piped())
        .stdout(Stdio::piped())
        .stderr(Stdio::piped())
        .spawn()
        .expect("the program runs");
    let mut to = child.stdin.take().expect("it has one");
    to.write_all(input).expect("it reads");
    drop(to);
    let output = child.wait_with_output().expect("the program ends");
    (
        output.status.code().expect("the program exits"),
        output.stdout,
        String::from_utf8(output.stderr).expect("it prints text"),
    )
}

/// A line for every command, each accepted, and a question.
pub const EVERY: &str = "/d_recv ping.scsyndef\n/g_new 1 0 0\n/g_new 2 1 0\n/s_new ping 10 0 1\n\
    /s_new ping 11 1 1\n/n_before 11 10\n/n_after 11 10\n/g_head 2 11\n/g_tail 2 10\n\
    /n_run 11 0\n/n_set 10 0 1\n/n_set 10 freq 2\n/n_fill 10 0 1 3\n\
    /n_fill 10 freq 1 4\n/n_map 11 0 5\n/n_map 11 freq 6\n/c_set 6 0.5\n\
    /c_fill 7 2 0.25\n/c_get 8\n/s_get 11 0\n/s_get 11 freq\n/n_query 2\n\
    /g_queryTree 2 1\n/g_queryTree 2 0\ntree\nwhy 10\nexport\nstore\n\
    save 10\nrecall ping 1 11\nsettings\ndrop ping 1\n/n_free 10\n/g_deepFree 0\n/g_freeAll 0\n\
    /d_free ping\n/status\ntree\n";
