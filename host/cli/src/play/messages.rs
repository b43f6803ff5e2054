//! `limudvek play --messages FILE`: sends the messages of a file to an engine, and prints the answers.
//! Each stands after its length, four bytes with the highest first.

use super::message::Message;
use super::{status, Applies, Player, Stopped};
use std::ffi::OsStr;
use std::fs::File;
use std::io::{self, BufReader, BufWriter, Read, Write};
use std::process::ExitCode;

const MALFORMED: u32 = 26;

/// Plays a file, or standard input where it is named `-`, to standard output.
pub fn file(name: &OsStr, engine: &mut impl Applies) -> ExitCode {
    let played = if name == "-" {
        play(io::stdin().lock(), engine, &mut io::stdout().lock())
    } else {
        let mut out = BufWriter::new(io::stdout().lock());
        File::open(name)
            .map_err(Stopped::Input)
            .and_then(|file| play(BufReader::new(file), engine, &mut out))
    };
    status(name, played)
}

/// Plays messages up to the end, or to one that is cut. Answers whether each was whole.
pub fn play(
    mut input: impl Read,
    engine: &mut impl Applies,
    out: &mut impl Write,
) -> Result<bool, Stopped> {
    let mut player = Player::new(engine);
    let mut place = 0;
    let all_whole = loop {
        match next(&mut input).map_err(Stopped::Input)? {
            Next::Message(message) => {
                let (number, length) = player.message(&message);
                let text = shown(&message, number, place);
                player.answered(&text, number, length, out)?;
                place += 4 + message.len() as u64;
            }
            Next::End => break true,
            Next::Cut(how) => {
                writeln!(out, "byte {place}: a message is cut: {how}")?;
                break false;
            }
        }
    };
    out.flush()?;
    Ok(all_whole)
}

enum Next {
    Message(Vec<u8>),
    End,
    /// The input ends within one. In words, how.
    Cut(String),
}

fn next(input: &mut impl Read) -> io::Result<Next> {
    let length = up_to(4, input)?;
    let length = match *length.as_slice() {
        [] => return Ok(Next::End),
        [a, b, c, d] => u32::from_be_bytes([a, b, c, d]),
        _ => {
            let there = length.len();
            return Ok(Next::Cut(format!("its length has {there} of 4 bytes")));
        }
    };
    let message = up_to(length, input)?;
    let there = message.len();
    Ok(if there < length as usize {
        Next::Cut(format!("it has {there} of {length} bytes"))
    } else {
        Next::Message(message)
    })
}

/// So many bytes, or fewer where the input ends.
fn up_to(count: u32, input: &mut impl Read) -> io::Result<Vec<u8>> {
    let mut bytes = Vec::new();
    input.take(u64::from(count)).read_to_end(&mut bytes)?;
    Ok(bytes)
}

/// A message as text, or where it stands.
fn shown(message: &[u8], number: u32, place: u64) -> String {
    match Message::read(message) {
        Some(text) if number != MALFORMED => text.to_string(),
        _ => format!("message at byte {place}"),
    }
}
