//! The program `limudvek`: the commands that need the engine.

use cli::{messages, page, play};
use engine::Engine;
use std::env;
use std::ffi::OsString;
use std::process::ExitCode;

/// The exit status for a bad command.
const UNREADABLE: u8 = 2;

fn main() -> ExitCode {
    let mut words = env::args_os().skip(1);
    let command = words.next();
    let rest: Vec<_> = words.collect();
    let engine = &mut Engine::new();
    let is_flag = |word: &OsString| word == "--messages";
    match (command.as_ref().and_then(|word| word.to_str()), &rest[..]) {
        (Some("play"), [flag, file]) if is_flag(flag) => play::messages::file(file, engine),
        (Some("play"), [file]) if !is_flag(file) => play::file(file, engine),
        (Some("page"), [file]) => page::file(file, engine),
        (Some("messages"), [file]) => messages::file::<Engine>(file),
        _ => {
            eprintln!(
                "usage: limudvek play FILE\n       limudvek play --messages FILE\n       \
                 limudvek page FILE\n       limudvek messages FILE"
            );
            ExitCode::from(UNREADABLE)
        }
    }
}
