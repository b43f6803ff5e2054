//! The program `limudvek-files`: the commands that need the library of files alone.

mod check;
mod widen;

use std::env;
use std::ffi::OsString;
use std::process::ExitCode;

/// The exit status where a file is refused.
const REFUSED: u8 = 1;

/// The exit status where a file can't be read or written, and for a bad command.
const UNREADABLE: u8 = 2;

fn main() -> ExitCode {
    let words: Vec<OsString> = env::args_os().skip(1).collect();
    let command = words.first().and_then(|word| word.to_str());
    let status = match (command, words.get(1..).unwrap_or_default()) {
        (Some("check"), files @ [_, ..]) => check::files(files),
        (Some("widen"), [from, to]) => widen::file(from, to),
        _ => {
            eprintln!("usage: limudvek check FILE...\n       limudvek widen IN OUT");
            UNREADABLE
        }
    };
    ExitCode::from(status)
}
