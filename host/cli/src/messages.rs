//! `limudvek messages FILE`: writes a script's commands as messages, each after its length, four bytes
//! with the highest first. Nothing is played. A line that is no message is named, and the rest is written.

use crate::play::line::{self, Call, Line};
use crate::play::{load, next_line, status, written, Applies, Stopped};
use std::ffi::OsStr;
use std::fs::File;
use std::io::{self, BufRead, BufReader, BufWriter, Write};
use std::path::Path;
use std::process::ExitCode;
use synthdef::refusal;

/// Writes the messages of a script, or of standard input where it is named `-`, to standard output, and
/// names the lines that are none on standard error.
pub fn file<D: Applies>(name: &OsStr) -> ExitCode {
    let (mut out, mut named) = (BufWriter::new(io::stdout().lock()), io::stderr().lock());
    let done = if name == "-" {
        let (input, folder) = (io::stdin().lock(), Path::new(""));
        messages::<D>(input, folder, &mut out, &mut named)
    } else {
        let folder = Path::new(name).parent().unwrap_or(Path::new(""));
        File::open(name)
            .map_err(Stopped::Input)
            .and_then(|script| messages::<D>(BufReader::new(script), folder, &mut out, &mut named))
    };
    drop(named);
    status(name, done)
}

/// Writes the messages of a script. Files of `/d_recv` are named from the folder. Answers whether each
/// line was a message.
pub fn messages<D: Applies>(
    mut script: impl BufRead,
    folder: &Path,
    out: &mut impl Write,
    named: &mut impl Write,
) -> Result<bool, Stopped> {
    let mut all = true;
    let mut place = 0;
    while let Some(text) = next_line(&mut script)? {
        place += 1;
        let message = line::read(&text).and_then(|line| match line {
            Some(line) => message::<D>(line, folder).map(Some),
            None => Ok(None),
        });
        match message {
            Ok(None) => {}
            Ok(Some((length, message))) => {
                out.write_all(&length.to_be_bytes())?;
                out.write_all(&message)?;
            }
            Err(why) => {
                all = false;
                writeln!(named, "limudvek: line {place}: {why}")?;
            }
        }
    }
    out.flush()?;
    Ok(all)
}

/// The message of a line and its length, or why it is none.
fn message<D: Applies>(line: Line, folder: &Path) -> Result<(u32, Vec<u8>), String> {
    let unwritten = |text: &str, number: u32| format!("{text}: {}", refusal::unwritten(number));
    let of = |text: &str, call: &Call| {
        let message = written::<D>(call).map_err(|number| unwritten(text, number))?;
        match u32::try_from(message.len()) {
            Ok(length) => Ok((length, message)),
            Err(_) => Err(format!("{text}: its length has no room in four bytes")),
        }
    };
    match line {
        Line::Help => Err(unwritten("help", NO_ADDRESS)),
        Line::Tree => Err(unwritten("tree", NO_ADDRESS)),
        Line::List => Err(unwritten("list", NO_ADDRESS)),
        Line::End => Err(unwritten("end", NO_ADDRESS)),
        Line::Why { text, .. } | Line::Settings { text, .. } => Err(unwritten(&text, NO_ADDRESS)),
        Line::Load { text, file } => of(&text, &load(&file, folder)?),
        Line::Call { text, call } => of(&text, &call),
    }
}

const NO_ADDRESS: u32 = 27;
