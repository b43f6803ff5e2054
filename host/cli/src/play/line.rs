//! A line of a script: a command in the reference's notation, a comment, or nothing.

use synthdef::show::{self, in_quotes, looks_integer};

/// The kinds of commands that the player looks at, by their numbers.
pub const D_RECV: u32 = 1;
pub const QUERY_TREE: u32 = 25;
pub const EXPORT: u32 = 27;
pub const RECALL: u32 = engine::settings::RECALL;

/// A command as the exported function takes it.
#[derive(Clone, Debug, Default, PartialEq, Eq)]
pub struct Call {
    pub op: u32,
    pub numbers: [u32; 5],
    pub bytes: Vec<u8>,
}

impl Call {
    pub fn new(op: u32, bytes: Vec<u8>) -> Call {
        Call {
            op,
            bytes,
            ..Call::default()
        }
    }
}

/// `text` is the line as it is shown.
#[derive(Debug, PartialEq, Eq)]
pub enum Line {
    Help,
    Tree,
    /// The first line of a list, and the one after its last.
    List,
    End,
    /// The question why a node is silent.
    Why {
        text: String,
        number: i32,
    },
    /// What is done with saved settings, but for a recall, which is a command.
    Settings {
        text: String,
        asked: Settings,
    },
    Load {
        text: String,
        file: Vec<u8>,
    },
    Call {
        text: String,
        call: Call,
    },
}

#[derive(Debug, PartialEq, Eq)]
pub enum Settings {
    /// Lends the store of a file, or an empty one that no file keeps.
    Lend(Option<Vec<u8>>),
    Save(i32),
    /// A definition's name, and the version.
    Drop(Vec<u8>, u32),
    List,
}

/// What stands after a command's address.
#[derive(Clone, Copy)]
enum Argument {
    /// A definition's name, as the command's bytes.
    Name,
    /// An integer, as one of the command's numbers.
    Int(usize),
    /// A version, as the first number.
    Version,
    /// A control: an index as the second number, or a name as the bytes. A name makes the kind one
    /// more.
    Control,
    /// A float or an integer, as the last two numbers.
    Value,
}

/// Each command's kind and what it takes.
fn command(address: &[u8]) -> Option<(u32, &'static [Argument])> {
    use Argument::{Control, Int, Name, Value, Version};
    Some(match address {
        b"/d_free" => (2, &[Name]),
        b"/s_new" => (3, &[Name, Int(0), Int(1), Int(2)]),
        b"/g_new" => (4, &[Int(0), Int(1), Int(2)]),
        b"/n_free" => (5, &[Int(0)]),
        b"/g_freeAll" => (6, &[Int(0)]),
        b"/g_deepFree" => (7, &[Int(0)]),
        b"/n_before" => (8, &[Int(0), Int(1)]),
        b"/n_after" => (9, &[Int(0), Int(1)]),
        b"/g_head" => (10, &[Int(0), Int(1)]),
        b"/g_tail" => (11, &[Int(0), Int(1)]),
        b"/n_run" => (12, &[Int(0), Int(1)]),
        b"/n_set" => (13, &[Int(0), Control, Value]),
        b"/n_fill" => (15, &[Int(0), Control, Int(2), Value]),
        b"/n_map" => (17, &[Int(0), Control, Int(2)]),
        b"/c_set" => (19, &[Int(0), Value]),
        b"/c_fill" => (20, &[Int(0), Int(2), Value]),
        b"/s_get" => (21, &[Int(0), Control]),
        b"/c_get" => (23, &[Int(0)]),
        b"/n_query" => (24, &[Int(0)]),
        b"/g_queryTree" => (QUERY_TREE, &[Int(0), Int(1)]),
        b"/status" => (26, &[]),
        b"export" => (EXPORT, &[]),
        b"recall" => (RECALL, &[Name, Version, Int(1)]),
        _ => return None,
    })
}

/// A word of a line, and whether it stood in quotes.
struct Word {
    bytes: Vec<u8>,
    quoted: bool,
}

/// The line, none where it holds nothing to do, or why it can't be read.
pub fn read(text: &[u8]) -> Result<Option<Line>, String> {
    let words = words(text)?;
    let Some((first, arguments)) = words.split_first() else {
        return Ok(None);
    };
    let text: Vec<String> = words.iter().map(Word::shown).collect();
    let text = text.join(" ");
    let address = first.bytes.as_slice();
    let expect = |count: usize| {
        if arguments.len() == count {
            Ok(())
        } else {
            let (shown, given) = (show::path(address), arguments.len());
            let takes = show::counted(count, "argument");
            Err(format!("{shown} takes {takes}, not {given}"))
        }
    };
    let alone = match address {
        b"help" => Some(Line::Help),
        b"tree" => Some(Line::Tree),
        b"list" => Some(Line::List),
        b"end" => Some(Line::End),
        _ => None,
    };
    if let Some(line) = alone {
        expect(0)?;
        return Ok(Some(line));
    }
    if address == b"why" {
        expect(1)?;
        let number = arguments[0].integer()?;
        return Ok(Some(Line::Why { text, number }));
    }
    if let Some((takes, settings)) = settings(address) {
        // A store without a file is one that no file keeps.
        if address != STORE || !arguments.is_empty() {
            expect(takes)?;
        }
        let asked = settings(arguments)?;
        return Ok(Some(Line::Settings { text, asked }));
    }
    if address == b"/d_recv" {
        expect(1)?;
        let file = arguments[0].bytes.clone();
        return Ok(Some(Line::Load { text, file }));
    }
    let Some((op, kinds)) = command(address) else {
        return Err(format!("{} is no command", show::path(address)));
    };
    expect(kinds.len())?;
    let mut call = Call::new(op, Vec::new());
    for (word, kind) in arguments.iter().zip(kinds) {
        put(word, *kind, &mut call)?;
    }
    Ok(Some(Line::Call { text, call }))
}

/// The word that lends a store.
const STORE: &[u8] = b"store";

/// What a line about saved settings takes, and how that is read.
type Asked = fn(&[Word]) -> Result<Settings, String>;

fn settings(address: &[u8]) -> Option<(usize, Asked)> {
    Some(match address {
        STORE => (1, |words| {
            let file = words.first().map(|word| word.bytes.clone());
            Ok(Settings::Lend(file))
        }),
        b"save" => (1, |words| words[0].integer().map(Settings::Save)),
        b"drop" => (2, |words| {
            let version = words[1].version()?;
            Ok(Settings::Drop(words[0].bytes.clone(), version))
        }),
        b"settings" => (0, |_| Ok(Settings::List)),
        _ => return None,
    })
}

fn put(word: &Word, kind: Argument, call: &mut Call) -> Result<(), String> {
    match kind {
        Argument::Name => call.bytes = word.bytes.clone(),
        Argument::Int(place) => call.numbers[place] = word.integer()? as u32,
        Argument::Version => call.numbers[0] = word.version()?,
        Argument::Control if word.looks_integer() => call.numbers[1] = word.integer()? as u32,
        Argument::Control => {
            call.op += 1;
            call.bytes = word.bytes.clone();
        }
        Argument::Value if word.looks_integer() => {
            call.numbers[3] = 1;
            call.numbers[4] = word.integer()? as u32;
        }
        Argument::Value => call.numbers[4] = word.float()?.to_bits(),
    }
    Ok(())
}

impl Word {
    fn shown(&self) -> String {
        if self.quoted {
            in_quotes(&self.bytes)
        } else {
            show::path(&self.bytes)
        }
    }

    fn looks_integer(&self) -> bool {
        !self.quoted && looks_integer(&self.bytes)
    }

    fn parsed<T: std::str::FromStr>(&self, what: &str) -> Result<T, String> {
        let number = std::str::from_utf8(&self.bytes)
            .ok()
            .filter(|_| !self.quoted)
            .and_then(|text| text.parse().ok());
        number.ok_or_else(|| format!("{} is no {what}", show::path(&self.bytes)))
    }

    fn integer(&self) -> Result<i32, String> {
        self.parsed("integer of 32 bits")
    }

    fn version(&self) -> Result<u32, String> {
        self.parsed("version from 0 to 4294967295")
    }

    fn float(&self) -> Result<f32, String> {
        self.parsed("number")
    }
}

/// The words of a line, up to its comment.
fn words(text: &[u8]) -> Result<Vec<Word>, String> {
    let mut words = Vec::new();
    let mut at = 0;
    loop {
        match text.get(at) {
            None | Some(b'#') => return Ok(words),
            Some(byte) if byte.is_ascii_whitespace() => at += 1,
            Some(b'"') => {
                let (bytes, end) = until_quote(text, at + 1)?;
                words.push(Word {
                    bytes,
                    quoted: true,
                });
                at = end;
            }
            Some(_) => {
                let ends = |byte: &u8| byte.is_ascii_whitespace() || matches!(byte, b'#' | b'"');
                let length = text[at..].iter().position(ends).unwrap_or(text.len() - at);
                words.push(Word {
                    bytes: text[at..at + length].to_vec(),
                    quoted: false,
                });
                at += length;
            }
        }
    }
}

/// A name in quotes from after the first, and where the line goes on. `\"`, `\\` and `\xNN` stand for
/// a quote, a backslash and any byte.
fn until_quote(text: &[u8], start: usize) -> Result<(Vec<u8>, usize), String> {
    let mut bytes = Vec::new();
    let mut at = start;
    loop {
        let rest = text.get(at..).unwrap_or(&[]);
        let (byte, length) = match rest {
            [] => return Err("a quote is not closed".to_string()),
            [b'"', ..] => return Ok((bytes, at + 1)),
            [b'\\', byte @ (b'"' | b'\\'), ..] => (*byte, 2),
            [b'\\', b'x', high, low, ..] => match (digit(*high), digit(*low)) {
                (Some(high), Some(low)) => (16 * high + low, 4),
                _ => return Err("after \\x come two hexadecimal digits".to_string()),
            },
            [b'\\', ..] => {
                return Err("a backslash in quotes stands before \", \\ or x".to_string())
            }
            [byte, ..] => (*byte, 1),
        };
        bytes.push(byte);
        at += length;
    }
}

fn digit(byte: u8) -> Option<u8> {
    char::from(byte).to_digit(16).map(|digit| digit as u8)
}
