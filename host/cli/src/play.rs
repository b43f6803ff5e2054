//! `limudvek play FILE`: sends a script's commands to an engine as messages, one a line, and those between
//! `list` and `end` as one list, and prints the answers. Settings are saved to a store that a line lends.

mod applies;
pub(crate) mod line;
mod list;
pub(crate) mod message;
pub mod messages;
pub(crate) mod settings;
mod store;
pub(crate) mod tree;
mod why;

pub(crate) use applies::written;
pub use applies::Applies;
use line::{Call, Line};
use list::Open;
use message::Message;
use std::ffi::OsStr;
use std::fs::{self, File};
use std::io::{self, BufRead, BufReader, BufWriter, IsTerminal, Write};
use std::os::unix::ffi::OsStrExt;
use std::path::Path;
use std::process::ExitCode;
pub(crate) use store::NotKept;
use store::Store;
use synthdef::{refusal, show};

/// What `limudvek help` prints: the usage, an empty line, and what a script can hold.
const HELP: &str = include_str!("../../help.txt");

/// The address of the reply that is printed as a tree.
const QUERY_TREE_REPLY: &[u8] = b"/g_queryTree.reply";

/// Longer than any reply or export.
const REPLY: usize = 1 << 20;

/// Said of a list where the script ends before it does.
pub(crate) const NO_END: &str = "this list has no end, and was not sent";

/// The exit status where a line can't be read, and where the script can't be.
const LINES_UNREADABLE: u8 = 1;
const UNREADABLE: u8 = 2;

/// Why playing stopped before the script's end.
#[derive(Debug)]
pub enum Stopped {
    Input(io::Error),
    Output(io::Error),
}

/// The errors that are not of the script's own reading.
impl From<io::Error> for Stopped {
    fn from(error: io::Error) -> Stopped {
        Stopped::Output(error)
    }
}

/// Plays a file, or standard input where it is named `-`, to standard output.
pub fn file(name: &OsStr, engine: &mut impl Applies) -> ExitCode {
    let played = if name == "-" {
        let (input, mut out) = (io::stdin().lock(), io::stdout().lock());
        let folder = Path::new("");
        if input.is_terminal() {
            prompt(input, folder, engine, &mut out)
        } else {
            play(input, folder, engine, &mut out)
        }
    } else {
        let folder = Path::new(name).parent().unwrap_or(Path::new(""));
        let mut out = BufWriter::new(io::stdout().lock());
        File::open(name)
            .map_err(Stopped::Input)
            .and_then(|script| play(BufReader::new(script), folder, engine, &mut out))
    };
    status(name, played)
}

/// The exit status of what was read whole, or in parts, or not at all.
pub(crate) fn status(name: &OsStr, played: Result<bool, Stopped>) -> ExitCode {
    match played {
        Ok(true) => ExitCode::SUCCESS,
        Ok(false) => ExitCode::from(LINES_UNREADABLE),
        Err(Stopped::Input(error)) => {
            eprintln!("limudvek: {}: {error}", show::path(name.as_bytes()));
            ExitCode::from(UNREADABLE)
        }
        Err(Stopped::Output(error)) => {
            eprintln!("limudvek: standard output: {error}");
            ExitCode::from(UNREADABLE)
        }
    }
}

/// Plays a script. Its files are named from the folder. At the end, also where the output breaks off, its store is written back. Answers
/// whether each line could be read, and the store was kept.
pub fn play(
    script: impl BufRead,
    folder: &Path,
    engine: &mut impl Applies,
    out: &mut impl Write,
) -> Result<bool, Stopped> {
    let mut player = Player::new(engine);
    let played = lines(script, folder, &mut player, out);
    let kept = player.keep();
    let all_read = played?;
    if let Some(NotKept { place, why }) = &kept {
        writeln!(out, "line {place}: {why}")?;
    }
    out.flush()?;
    Ok(all_read && kept.is_none())
}

/// Plays the lines of a script. Answers whether each could be read.
fn lines(
    mut script: impl BufRead,
    folder: &Path,
    player: &mut Player<impl Applies>,
    out: &mut impl Write,
) -> Result<bool, Stopped> {
    let mut all_read = true;
    let mut place = 0;
    while let Some(text) = next_line(&mut script)? {
        place += 1;
        if let Some(why) = player.text(&text, place, folder, out)? {
            all_read = false;
            writeln!(out, "line {place}: {why}")?;
        }
    }
    if let Some(open) = &player.list {
        all_read = false;
        writeln!(out, "line {}: {NO_END}", open.place)?;
    }
    Ok(all_read)
}

/// Asks for a line and plays it, until the input ends; then its store is written back.
pub fn prompt(
    input: impl BufRead,
    folder: &Path,
    engine: &mut impl Applies,
    out: &mut impl Write,
) -> Result<bool, Stopped> {
    let mut player = Player::new(engine);
    let asked = ask(input, folder, &mut player, out);
    let kept = player.keep();
    asked?;
    if let Some(NotKept { why, .. }) = &kept {
        writeln!(out, "{why}")?;
    }
    Ok(kept.is_none())
}

/// Asks for lines until the input ends.
fn ask(
    mut input: impl BufRead,
    folder: &Path,
    player: &mut Player<impl Applies>,
    out: &mut impl Write,
) -> Result<(), Stopped> {
    writeln!(out, "A command a line; help lists them, Ctrl-D ends.")?;
    // Lines are counted within a list.
    let mut place = 0;
    loop {
        place = player.list.as_ref().map_or(0, |_| place + 1);
        write!(out, "{}> ", if place > 0 { "list" } else { "" })?;
        out.flush()?;
        let Some(text) = next_line(&mut input)? else {
            writeln!(out)?;
            if player.list.is_some() {
                writeln!(out, "{NO_END}")?;
            }
            return Ok(());
        };
        if let Some(why) = player.text(&text, place, folder, out)? {
            writeln!(out, "{why}")?;
        }
    }
}

/// The next line without its end, none where nothing is left.
pub(crate) fn next_line(input: &mut impl BufRead) -> Result<Option<Vec<u8>>, Stopped> {
    let mut text = Vec::new();
    match input.read_until(b'\n', &mut text) {
        Ok(0) => Ok(None),
        Ok(_) => {
            if text.ends_with(b"\n") {
                text.pop();
            }
            Ok(Some(text))
        }
        Err(error) => Err(Stopped::Input(error)),
    }
}

/// The command that loads a file, or why the file can't be read.
pub(crate) fn load(file: &[u8], folder: &Path) -> Result<Call, String> {
    let path = folder.join(OsStr::from_bytes(file));
    match fs::read(path) {
        Ok(bytes) => Ok(Call::new(line::D_RECV, bytes)),
        Err(error) => Err(format!("{}: {error}", show::path(file))),
    }
}

/// Prints whether a command was accepted, and if not, why and where.
fn verdict(text: &str, number: u32, place: usize, out: &mut impl Write) -> io::Result<()> {
    if number == 0 {
        return writeln!(out, "{text}: ok");
    }
    write!(out, "{text}: refused {number}: {}", refusal::reason(number))?;
    match number {
        2..=11 => writeln!(out, ", at byte {place}"),
        _ => writeln!(out),
    }
}

pub(crate) struct Player<'a, D> {
    pub(crate) engine: &'a mut D,
    pub(crate) reply: Vec<u8>,
    /// The list that the lines go to, until its end.
    pub(crate) list: Option<Open>,
    /// The store of saved settings, where one is lent.
    pub(crate) store: Option<Store>,
}

impl<D: Applies> Player<'_, D> {
    pub(crate) fn new(engine: &mut D) -> Player<'_, D> {
        Player {
            engine,
            reply: vec![0; REPLY],
            list: None,
            store: None,
        }
    }

    /// Does what a line says and prints it. Answers why it can't be read, if so.
    fn text(
        &mut self,
        text: &[u8],
        place: usize,
        folder: &Path,
        out: &mut impl Write,
    ) -> io::Result<Option<String>> {
        match line::read(text) {
            Ok(None) => Ok(None),
            Ok(Some(line)) => self.line(line, place, folder, out),
            Err(why) => Ok(Some(self.unread(place, why))),
        }
    }

    /// A line can't be read, and so the list that it stands in is not sent.
    pub(crate) fn unread(&mut self, place: usize, why: String) -> String {
        if let Some(open) = &mut self.list {
            open.spoil(place);
        }
        why
    }

    /// Does what a line says, or keeps it for its list. Answers as `text`.
    pub(crate) fn line(
        &mut self,
        line: Line,
        place: usize,
        folder: &Path,
        out: &mut impl Write,
    ) -> io::Result<Option<String>> {
        let (text, call) = match line {
            Line::End => match self.list.take() {
                Some(open) => return open.send(self.engine, out).map(|_| None),
                None => return Ok(Some("end stands behind no list".to_string())),
            },
            Line::Load { text, file } => match load(&file, folder) {
                Ok(call) => (text, call),
                Err(why) => return Ok(Some(self.unread(place, why))),
            },
            Line::Call { text, call } => (text, call),
            Line::Help | Line::Tree | Line::List | Line::Why { .. } | Line::Settings { .. }
                if self.list.is_some() =>
            {
                let why = "between list and end stand commands only".to_string();
                return Ok(Some(self.unread(place, why)));
            }
            Line::List => {
                self.list = Some(Open::new(place));
                return Ok(None);
            }
            Line::Help => {
                let (_, script) = HELP.split_once("\n\n").unwrap_or_default();
                write!(out, "{script}")?;
                return Ok(None);
            }
            Line::Tree => {
                writeln!(out, "tree: ok")?;
                self.tree(out)?;
                return Ok(None);
            }
            Line::Why { text, number } => {
                match self.engine.why(number) {
                    Ok(reason) => {
                        let words = self.engine.words();
                        writeln!(out, "{}", why::sentence(number, reason, words))?;
                    }
                    Err(refused) => verdict(&text, refused.number, 0, out)?,
                }
                return Ok(None);
            }
            Line::Settings { text, asked } => {
                return self.settings(&text, &asked, place, folder, out)
            }
        };
        match &mut self.list {
            Some(open) => open.push(place, text, call),
            None if call.op == line::RECALL => return self.recall(&text, &call, out),
            None => self.call(&text, &call, out)?,
        }
        Ok(None)
    }

    /// Sends a command. Answers the refusal's number, or 0, and the place or the reply's length.
    pub(crate) fn send(&mut self, call: &Call) -> (u32, usize) {
        let answer = self
            .engine
            .apply(call.op, call.numbers, &call.bytes, &mut self.reply);
        ((answer % 256) as u32, (answer / 256) as usize)
    }

    /// Sends a message. Answers as `send`.
    fn message(&mut self, message: &[u8]) -> (u32, usize) {
        let answer = self.engine.message(message, &mut self.reply);
        ((answer % 256) as u32, (answer / 256) as usize)
    }

    /// Sends a command as a message, or as it is where it has no address, and prints the answer.
    fn call(&mut self, text: &str, call: &Call, out: &mut impl Write) -> io::Result<()> {
        if call.op == line::EXPORT {
            let (number, length) = self.send(call);
            verdict(text, number, length, out)?;
            if number == 0 {
                let file = &self.reply[..length];
                writeln!(out, "  {length} bytes, {}", show::definitions(file))?;
            }
            return Ok(());
        }
        match written::<D>(call) {
            Ok(message) => {
                let (number, length) = self.message(&message);
                self.answered(text, number, length, out)
            }
            Err(number) => {
                let why = refusal::unwritten(number);
                writeln!(out, "{text}: refused {number} before it was sent: {why}")
            }
        }
    }

    /// Prints the answer to a message, and the reply if there is one.
    fn answered(
        &self,
        text: &str,
        number: u32,
        length: usize,
        out: &mut impl Write,
    ) -> io::Result<()> {
        verdict(text, number, length, out)?;
        if number != 0 || length == 0 {
            return Ok(());
        }
        match Message::read(&self.reply[..length]) {
            Some(message) if message.address == QUERY_TREE_REPLY => tree::reply(&message, out),
            Some(message) => writeln!(out, "  {message}"),
            None => writeln!(out, "  the reply is no message"),
        }
    }

    /// Prints the tree with all that the engine knows of it.
    fn tree(&mut self, out: &mut impl Write) -> io::Result<()> {
        let (_, length) = self.send(&Call {
            op: line::QUERY_TREE,
            numbers: [0, 1, 0, 0, 0],
            bytes: Vec::new(),
        });
        match Message::read(&self.reply[..length]) {
            Some(message) => tree::state(&message, self.engine.words(), out),
            None => writeln!(out, "  the engine does not answer"),
        }
    }
}
