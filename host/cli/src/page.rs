//! `limudvek page SCRIPT`: plays a script as `play` does and writes a page that steps through it.

mod ask;
mod compare;
mod data;
mod html;
mod json;
mod settings;

use crate::play::line::{self, Line};
use crate::play::{Applies, NotKept, Player, NO_END};
use ask::{Answers, Shape};
use data::Data;
use html::{List, Verdict};
use std::ffi::OsStr;
use std::fs;
use std::io::{self, Read, Write};
use std::os::unix::ffi::OsStrExt;
use std::path::Path;
use std::process::ExitCode;
use synthdef::show;

/// The exit status where a line can't be read, and where the script can't be.
const LINES_UNREADABLE: u8 = 1;
const UNREADABLE: u8 = 2;

/// Writes the page of a script, or of standard input where it is named `-`, to standard output.
pub fn file(name: &OsStr, engine: &mut impl Applies) -> ExitCode {
    let path = Path::new(name);
    let failed = |what: &str, error: io::Error| {
        eprintln!("limudvek: {what}: {error}");
        ExitCode::from(UNREADABLE)
    };
    let (title, folder) = match path.file_name() {
        Some(file) if name != "-" => (show::path(file.as_bytes()), path.parent()),
        _ => ("standard input".to_string(), None),
    };
    let script = if name == "-" {
        let mut script = Vec::new();
        let read = io::stdin().lock().read_to_end(&mut script);
        read.map(|_| script)
    } else {
        fs::read(path)
    };
    let folder = folder.unwrap_or(Path::new(""));
    let page = script.and_then(|script| page(&script, &title, folder, engine));
    let page = match page {
        Ok(page) => page,
        Err(error) => return failed(&show::path(name.as_bytes()), error),
    };
    match io::stdout().write_all(page.html.as_bytes()) {
        Ok(()) if page.all_read => ExitCode::SUCCESS,
        Ok(()) => ExitCode::from(LINES_UNREADABLE),
        Err(error) => failed("standard output", error),
    }
}

#[derive(Debug)]
pub struct Page {
    pub html: String,
    /// Whether each line could be read.
    pub all_read: bool,
}

/// Plays a script and makes its page. Its files are named from the folder, and its store is written back.
pub fn page(
    script: &[u8],
    title: &str,
    folder: &Path,
    engine: &mut impl Applies,
) -> io::Result<Page> {
    let mut player = Player::new(engine);
    let mut shapes = Vec::new();
    let mut data = Data::new(ask(&mut player, &mut shapes)?);
    let mut list = List::default();
    let mut all_read = true;
    let mut number = 0;
    for text in script.split(|&byte| byte == b'\n') {
        number += 1;
        let text = text.trim_ascii_end();
        let mut named = [None; 2];
        let played = match line::read(text) {
            Ok(None) if text.is_empty() => {
                list.empty();
                continue;
            }
            Ok(None) => None,
            Ok(Some(line)) => {
                named = names(&line, data.answers().latest);
                play(line, number, folder, &mut player)?
            }
            Err(why) => Some((Verdict::Unread, player.unread(number, why))),
        };
        // A comment, or a line that its list's end will send.
        let Some((verdict, answer)) = played else {
            list.idle(number, text);
            continue;
        };
        all_read &= verdict != Verdict::Unread;
        list.step(number, text, verdict, &answer);
        data.step(number, named, ask(&mut player, &mut shapes)?);
    }
    if player.list.is_some() {
        all_read = false;
        list.step(number + 1, b"", Verdict::Unread, NO_END);
        data.step(number + 1, [None; 2], ask(&mut player, &mut shapes)?);
    }
    if let Some(NotKept { place, why }) = player.keep() {
        all_read = false;
        let why = format!("line {place}: {why}");
        list.step(number + 1, b"", Verdict::Unread, &why);
        data.step(number + 1, [None; 2], ask(&mut player, &mut shapes)?);
    }
    let html = html::page(title, &list, &data.json(&shapes));
    Ok(Page { html, all_read })
}

fn ask(player: &mut Player<impl Applies>, shapes: &mut Vec<Shape>) -> io::Result<Answers> {
    let fault = || io::Error::other("the engine's answers do not fit together");
    Answers::ask(player, shapes).ok_or_else(fault)
}

/// Plays a line. Answers how it was answered: what `play` prints, without the line itself; or none where
/// the line stands in a list, which is played at its end.
fn play(
    line: Line,
    number: usize,
    folder: &Path,
    player: &mut Player<impl Applies>,
) -> io::Result<Option<(Verdict, String)>> {
    let echo = match (&line, &player.list) {
        (Line::End, Some(open)) => open.shown(),
        (Line::Help | Line::List | Line::End, _) => String::new(),
        (Line::Tree, _) => "tree".to_string(),
        (Line::Load { text, .. } | Line::Call { text, .. }, _) => text.clone(),
        (Line::Why { text, .. } | Line::Settings { text, .. }, _) => text.clone(),
    };
    let mut out = Vec::new();
    if let Some(why) = player.line(line, number, folder, &mut out)? {
        return Ok(Some((Verdict::Unread, why)));
    }
    if player.list.is_some() {
        return Ok(None);
    }
    let out = String::from_utf8_lossy(&out);
    let answer = out.strip_prefix(&format!("{echo}: ")).unwrap_or(&out);
    let verdict = if answer.starts_with("refused") || answer.starts_with("not sent") {
        Verdict::Refused
    } else {
        Verdict::Accepted
    };
    Ok(Some((verdict, answer.to_string())))
}

/// The nodes that a line names, as far as its first two numbers are such.
fn names(line: &Line, latest: Option<i32>) -> [Option<i32>; 2] {
    match line {
        // Of a recall the first is a version.
        Line::Call { call, .. } if call.op != line::RECALL => [call.numbers[0], call.numbers[1]]
            .map(|number| match number as i32 {
                -1 => latest,
                number => Some(number),
            }),
        _ => [None; 2],
    }
}
