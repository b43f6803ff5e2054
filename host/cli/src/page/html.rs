//! The page: a list of the script's lines with the answers, which can be read as it is, and what the
//! page's own script needs to draw the steps.

use std::fmt::Write;

const TEMPLATE: &str = include_str!("page.html");
const STYLE: &str = include_str!("page.css");
/// Puts the differences together, and draws.
const SCRIPT: &str = concat!(
    include_str!("state.js"),
    include_str!("tree.js"),
    include_str!("draw.js")
);

/// Answers of more than so many bytes are cut to their first lines where all would come to more than
/// the most.
const SHORT: usize = 300;
const MOST_ANSWERS: usize = 1 << 21;

/// How a line was answered.
#[derive(Clone, Copy, Debug, PartialEq, Eq)]
pub enum Verdict {
    Accepted,
    Refused,
    Unread,
}

/// The list of lines as it grows.
#[derive(Default)]
pub struct List {
    html: String,
    answers: usize,
    steps: usize,
    /// Whether empty lines stand before the next.
    gap: bool,
}

impl List {
    pub fn empty(&mut self) {
        self.gap = true;
    }

    /// A line with nothing to do.
    pub fn idle(&mut self, line: usize, text: &[u8]) {
        self.item("note", line, text);
        self.html.push_str("</li>\n");
    }

    /// A step, and how it was answered.
    pub fn step(&mut self, line: usize, text: &[u8], verdict: Verdict, answer: &str) {
        self.steps += 1;
        let class = match verdict {
            Verdict::Accepted => "step",
            Verdict::Refused => "step refused",
            Verdict::Unread => "step unread",
        };
        self.item(class, line, text);
        let answer = self.cut(answer.trim_end());
        self.html.push_str("<samp>");
        escape(&answer, &mut self.html);
        self.html.push_str("</samp></li>\n");
    }

    fn item(&mut self, class: &str, line: usize, text: &[u8]) {
        let gap = if std::mem::take(&mut self.gap) {
            " gap"
        } else {
            ""
        };
        let start = format_args!("<li value=\"{line}\" class=\"{class}{gap}\"><code>");
        self.html.write_fmt(start).expect("a string takes all");
        let (command, comment) = text.split_at(comment(text));
        escape(&shown(command), &mut self.html);
        if !comment.is_empty() {
            self.html.push_str("<span>");
            escape(&shown(comment.trim_ascii_end()), &mut self.html);
            self.html.push_str("</span>");
        }
        self.html.push_str("</code>");
    }

    /// An answer, or its first lines where there is no room for more.
    fn cut(&mut self, answer: &str) -> String {
        if answer.len() <= SHORT || self.answers + answer.len() <= MOST_ANSWERS {
            self.answers += answer.len();
            return answer.to_string();
        }
        let mut kept = String::new();
        let mut lines = answer.lines();
        while let Some(line) = lines.next() {
            if kept.len() + line.len() > SHORT {
                let left = 1 + lines.count();
                kept.push_str(&format!("  and {left} lines more, which play prints"));
                break;
            }
            kept.push_str(line);
            kept.push('\n');
        }
        kept
    }
}

/// The whole page, given the script's name and the data.
pub fn page(name: &str, list: &List, data: &str) -> String {
    let mut title = String::new();
    escape(name, &mut title);
    let steps = list.steps.to_string();
    let parts = [
        ("@style@", STYLE),
        ("@title@", &title),
        ("@steps@", &steps),
        ("@list@", &list.html),
        ("@data@", data),
        ("@script@", SCRIPT),
    ];
    let mut page = String::new();
    let mut rest = TEMPLATE;
    while let Some((at, mark, part)) = parts
        .iter()
        .filter_map(|(mark, part)| Some((rest.find(mark)?, mark, part)))
        .min()
    {
        page.push_str(&rest[..at]);
        page.push_str(part);
        rest = &rest[at + mark.len()..];
    }
    page.push_str(rest);
    page
}

/// Where a line's comment starts.
fn comment(line: &[u8]) -> usize {
    let mut quoted = false;
    let mut escaped = false;
    let starts = |&byte: &u8| {
        quoted ^= byte == b'"' && !escaped;
        escaped = quoted && byte == b'\\' && !escaped;
        byte == b'#' && !quoted
    };
    line.iter().position(starts).unwrap_or(line.len())
}

/// A part of a line as it was written. What is not UTF-8 is escaped byte by byte.
fn shown(part: &[u8]) -> String {
    let mut text = String::new();
    for chunk in part.utf8_chunks() {
        text.push_str(&chunk.valid().replace('\t', " "));
        for &byte in chunk.invalid() {
            escaped(byte, &mut text);
        }
    }
    text
}

/// Adds text to a page so that it is text there, whatever it holds. Letters that are not seen, or that
/// steer how others are seen, are escaped byte by byte.
fn escape(text: &str, html: &mut String) {
    for letter in text.chars() {
        match letter {
            '&' => html.push_str("&amp;"),
            '<' => html.push_str("&lt;"),
            '>' => html.push_str("&gt;"),
            '"' => html.push_str("&quot;"),
            '\'' => html.push_str("&#39;"),
            '\n' => html.push('\n'),
            _ if letter.is_control() || steers(letter) => {
                for byte in letter.to_string().bytes() {
                    escaped(byte, html);
                }
            }
            _ => html.push(letter),
        }
    }
}

fn escaped(byte: u8, text: &mut String) {
    write!(text, "\\x{byte:02x}").expect("a string takes all");
}

/// Marks of direction and joining, line ends, tags, and what stands for no letter.
fn steers(letter: char) -> bool {
    matches!(letter,
        '\u{ad}' | '\u{61c}' | '\u{180e}' | '\u{200b}'..='\u{200f}' | '\u{2028}'..='\u{202e}'
        | '\u{2060}'..='\u{206f}' | '\u{feff}' | '\u{fff0}'..='\u{fffb}' | '\u{fffe}'..='\u{ffff}'
        | '\u{e0000}'..='\u{e0fff}')
}
