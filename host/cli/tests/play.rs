//! `play` on the independent engine and, as the built program, on the proved one.

mod common;

use cli::play::{play, prompt};
use common::{examples, program_on, Independent, EVERY, PROGRAM};
use std::cell::RefCell;
use std::collections::BTreeSet;
use std::fs;
use std::io::{self, BufReader, BufWriter, Read, Write};
use std::path::Path;
use std::process::Command;

/// Plays a script beside the examples. Answers what is printed, and whether each line could be read.
fn played(script: &[u8]) -> (String, bool) {
    let mut out = Vec::new();
    let read = play(script, &examples(), &mut Independent::new(), &mut out);
    let text = String::from_utf8(out).expect("it prints text");
    (text, read.expect("a list can be written to"))
}

/// Plays a script whose lines can be read.
fn prints(script: &str, expected: &str) {
    assert_eq!(played(script.as_bytes()), (expected.to_string(), true));
}

/// A line that can't be read, between two that can.
fn unread(line: &str, why: &str) {
    let script = format!("/status\n{line}\n/n_free 5\n");
    let expected = format!(
        "/status: ok\n  /status.reply 0 0 1 0\nline 2: {why}\n\
         /n_free 5: refused 17: there is no such node\n"
    );
    assert_eq!(played(script.as_bytes()), (expected, false), "{line}");
}

#[test]
fn the_show_goes_as_it_is_kept() {
    let script = fs::read(examples().join("show.txt")).expect("the script");
    let (text, read) = played(&script);
    if std::env::var_os("LIMUDVEK_WRITE_EXAMPLES").is_some() {
        fs::write(examples().join("show.out"), &text).expect("it can be written");
    }
    let kept = fs::read_to_string(examples().join("show.out")).expect("its output");
    assert_eq!(text, kept);
    assert!(read);
}

#[test]
fn nothing_and_comments() {
    prints("", "");
    prints("\n  \n\t# /status\n#\n", "");
    let status = "/status: ok\n  /status.reply 0 0 1 0\n";
    prints("  /status   # now", status);
    prints("/status#now", status);
    prints(
        "/n_free\t 5\r\n",
        "/n_free 5: refused 17: there is no such node\n",
    );
}

#[test]
fn names_in_quotes() {
    let script = "/d_recv strings.scsyndef\n/s_new \"great hall\" 1 0 0\n\
                  /s_get 1 \"room size\"\n/s_get 1 \"room\\x20size\"\n/s_get 1 \"2\"\n\
                  /s_new \"a # \\\"b\\\\\" 2 0 0\n";
    prints(
        script,
        "/d_recv strings.scsyndef: ok\n\
         /s_new \"great hall\" 1 0 0: ok\n\
         /s_get 1 \"room size\": ok\n  /n_set 1 \"room size\" 0.75\n\
         /s_get 1 \"room size\": ok\n  /n_set 1 \"room size\" 0.75\n\
         /s_get 1 \"2\": refused 21: there is no such control\n\
         /s_new \"a # \\\"b\\\\\" 2 0 0: refused 16: no resident definition has this name\n",
    );
}

#[test]
fn values_are_integers_or_floats() {
    let script = "/c_set 0 16777216\n/c_set 0 16777217\n/c_set 0 16777218.0\n/c_get 0\n\
                  /c_set 0 -1e-3\n/c_get 0\n/c_set 0 +5\n/c_get 0\n/c_set 0 -inf\n/c_get 0\n\
                  /c_set 0 nan\n/c_get 0\n";
    prints(
        script,
        "/c_set 0 16777216: ok\n\
         /c_set 0 16777217: refused 23: an integer value is from -16,777,216 to 16,777,216\n\
         /c_set 0 16777218.0: ok\n/c_get 0: ok\n  /c_set 0 16777218.0\n\
         /c_set 0 -1e-3: ok\n/c_get 0: ok\n  /c_set 0 -0.001\n\
         /c_set 0 +5: ok\n/c_get 0: ok\n  /c_set 0 5.0\n\
         /c_set 0 -inf: ok\n/c_get 0: ok\n  /c_set 0 -inf\n\
         /c_set 0 nan: ok\n/c_get 0: ok\n  /c_set 0 NaN\n",
    );
}

#[test]
fn lines_that_cannot_be_read() {
    unread("/quit", "/quit is no command");
    unread("status", "status is no command");
    unread("/n_free", "/n_free takes 1 argument, not 0");
    unread("/n_free 5 6", "/n_free takes 1 argument, not 2");
    unread("tree 0", "tree takes 0 arguments, not 1");
    unread("/d_recv", "/d_recv takes 1 argument, not 0");
    unread("/n_free five", "five is no integer of 32 bits");
    unread("/n_free 1.0", "1.0 is no integer of 32 bits");
    unread("/n_free \"5\"", "5 is no integer of 32 bits");
    unread("why", "why takes 1 argument, not 0");
    unread("why not", "not is no integer of 32 bits");
    unread("why -2147483649", "-2147483649 is no integer of 32 bits");
    unread("/n_free 2147483648", "2147483648 is no integer of 32 bits");
    unread("/c_set 0 4294967296", "4294967296 is no integer of 32 bits");
    unread("/c_set 0 loud", "loud is no number");
    unread(
        "/n_set 0 2147483648 1",
        "2147483648 is no integer of 32 bits",
    );
    unread("/d_free \"rain", "a quote is not closed");
    unread(
        "/d_free \"rain\\",
        "a backslash in quotes stands before \", \\ or x",
    );
    unread("/d_free \"\\x4g\"", "after \\x come two hexadecimal digits");
    unread("\x1b[2J 5", "\\x1b[2J is no command");
    let (text, read) = played(b"/d_recv no/such file\n/d_recv \"no such file\"\n/d_free \xff\n");
    let lines: Vec<&str> = text.lines().collect();
    assert_eq!(lines[0], "line 1: /d_recv takes 1 argument, not 2");
    assert!(lines[1].starts_with("line 2: no such file: "), "{text}");
    assert_eq!(
        lines[2],
        "/d_free \\xff: refused 26 before it was sent: a name has a byte that is not from 1 to 127, or \
         the file is longer than 2,147,483,647 bytes"
    );
    assert!(!read);
}

#[test]
fn a_refused_file_has_its_place() {
    // The script itself is no synth definition file.
    prints(
        "/d_recv show.txt",
        "/d_recv show.txt: refused 3: it does not begin with SCgf, so it is no synth definition \
         file, at byte 0\n",
    );
}

#[test]
fn a_list_is_one_call() {
    prints(
        "list\nend\n  list # of two\n\n/g_new 1 1 0\n  # then\n/g_new 2 1 0   # another\nend # now\n\
         list\n/d_recv ping.scsyndef\n/s_new ping 10 0 1\n/n_set 10 freq 2\n/n_free 7\n/n_free 10\nend\n\
         list\n/n_free 7\nend\nlist\n/n_free 10\n/n_free 10\nend\nlist\n/n_free 2\nend\n",
        "list of 0 commands: ok\nlist of 2 commands: ok\n\
         list of 5 commands: refused 17 at line 13, /n_free 7: there is no such node; the 3 before it \
         stay done\n\
         list of 1 command: refused 17 at line 17, /n_free 7: there is no such node; nothing was done\n\
         list of 2 commands: refused 17 at line 21, /n_free 10: there is no such node; the one before \
         it stays done\n\
         list of 1 command: ok\n",
    );
    prints(
        "list\n/g_new 1 1 0\n/d_recv show.txt\n/g_new 2 1 0\nend\n/g_queryTree 0 0\n",
        "list of 3 commands: refused 3 at line 3, /d_recv show.txt: it does not begin with SCgf, so it is \
         no synth definition file, at byte 0; the one before it stays done\n\
         /g_queryTree 0 0: ok\n  /g_queryTree.reply\n  0 group of 1\n    1 group of 0\n",
    );
}

#[test]
fn a_list_that_is_refused_whole() {
    let whole = "refused 34: a list has at most 512 commands, and none of them replies or recalls";
    prints(
        "list\n/g_new 1 1 0\n\n/n_query 1\nexport\nend\n/n_query 1\n",
        &format!(
            "list of 3 commands: {whole}; that of line 4 does: /n_query 1\n\
             /n_query 1: refused 17: there is no such node\n"
        ),
    );
    let list = |count| format!("list\n{}end\n", "/c_set 7 1\n".repeat(count));
    prints(&list(512), "list of 512 commands: ok\n");
    prints(&list(513), &format!("list of 513 commands: {whole}\n"));
}

#[test]
fn a_list_with_a_line_that_cannot_be_read_is_not_sent() {
    let not_sent = |count, line| {
        format!("list of {count} commands: not sent, since line {line} can't be read\n")
    };
    let group = "/g_new 1 1 0\n";
    for (line, why) in [
        ("/quit", "/quit is no command"),
        ("/n_free five", "five is no integer of 32 bits"),
        ("tree", "between list and end stand commands only"),
        ("help", "between list and end stand commands only"),
        ("list", "between list and end stand commands only"),
        ("why 1", "between list and end stand commands only"),
        ("end now", "end takes 0 arguments, not 1"),
    ] {
        let script = format!("list\n{group}{line}\n{line}\n/g_new 2 1 0\nend\n{group}");
        let expected = format!(
            "line 3: {why}\nline 4: {why}\n{}/g_new 1 1 0: ok\n",
            not_sent(2, 3)
        );
        assert_eq!(played(script.as_bytes()), (expected, false), "{line}");
    }
    // A file that can't be read.
    let (text, read) = played(b"list\n/d_recv nofile\nend\n");
    assert!(text.starts_with("line 2: nofile: "), "{text}");
    assert!(text.ends_with(&not_sent(0, 2)), "{text}");
    assert!(!read);
}

#[test]
fn a_list_without_its_end_and_an_end_without_its_list() {
    unread("end", "end stands behind no list");
    for last in ["", "/g_new 2 1 0", "/g_new 2 1 0\n", "# end"] {
        let script = format!("/g_new 1 1 0\nlist\n/n_free 1\n{last}");
        let expected = "/g_new 1 1 0: ok\nline 2: this list has no end, and was not sent\n";
        assert_eq!(played(script.as_bytes()), (expected.to_string(), false));
    }
    // The first end ends it.
    let (text, read) = played(b"list\nlist\nend\nend\n");
    assert_eq!(
        text,
        "line 2: between list and end stand commands only\n\
         list of 0 commands: not sent, since line 2 can't be read\n\
         line 4: end stands behind no list\n"
    );
    assert!(!read);
}

#[test]
fn a_prompt_takes_lists() {
    let mut out = Vec::new();
    let input = b"list\n/g_new 1 0 0\n/n_free 9\nend\nlist\ntree\nend\nend\nlist\n/n_free 1\n";
    let read = prompt(&input[..], &examples(), &mut Independent::new(), &mut out);
    assert!(matches!(read, Ok(true)));
    assert_eq!(
        String::from_utf8(out).expect("it prints text"),
        "A command a line; help lists them, Ctrl-D ends.\n\
         > list> list> list> list of 2 commands: refused 17 at line 2, /n_free 9: there is no such \
         node; the one before it stays done\n\
         > list> between list and end stand commands only\n\
         list> list of 0 commands: not sent, since line 1 can't be read\n\
         > end stands behind no list\n\
         > list> list> \nthis list has no end, and was not sent\n"
    );
}

#[test]
fn every_command_has_its_kind() {
    let script = EVERY;
    let (text, read) = played(script.as_bytes());
    assert!(read && !text.contains("refused"), "{text}");
    let commands: Vec<&str> = text.lines().filter(|line| !line.starts_with(' ')).collect();
    let answer = |line| match line {
        "why 10" => "10 runs, 1st of 1".to_string(),
        _ => format!("{line}: ok"),
    };
    let expected: Vec<String> = script.lines().map(answer).collect();
    assert_eq!(commands, expected);
    for replies in [
        "/c_get 8: ok\n  /c_set 8 0.25\n/s_get 11 0: ok\n  /n_set 11 0 0.5\n\
         /s_get 11 freq: ok\n  /n_set 11 freq 0.5\n/n_query 2: ok\n  /n_info 2 0 1 -1 1 11 10\n",
        "/g_queryTree 2 1: ok\n  /g_queryTree.reply\n  2 group of 2\n    11 ping: freq c6\n\
         \x20   10 ping: freq 4.0\n",
        "/g_queryTree 2 0: ok\n  /g_queryTree.reply\n  2 group of 2\n    11 ping\n    10 ping\n",
        "tree: ok\n  0 group\n    1 group\n    2 group\n      11 ping, off\n\
         \x20       freq 0.5 from bus 6, own 440.0\n      10 ping\n        freq 4.0\n  running: 10\n",
        "export: ok\n  46 bytes, 1 definition: ping\n",
        "store: ok\nsave 10: ok\n  ping, version 1\nrecall ping 1 11: ok\nsettings: ok\n\
         \x20 ping, highest version 1\n    version 1: freq 4.0\n  32 of 65536 bytes\ndrop ping 1: ok\n",
        "/status: ok\n  /status.reply 0 0 1 0\ntree: ok\n  0 group\n  running:\n",
    ] {
        assert!(text.contains(replies), "{replies}\nis not in\n{text}");
    }
}

/// The lines of the help that are commands: the command with what it takes, and what it does.
fn listed(help: &str) -> Vec<(Vec<&str>, &str)> {
    let rows = help.lines().filter_map(|line| line.strip_prefix("  "));
    rows.map(|row| {
        let (command, does) = row.split_once("  ").expect("what it does");
        (command.split(' ').collect(), does.trim())
    })
    .collect()
}

#[test]
fn help_lists_the_commands_with_their_arguments() {
    let (help, read) = played(b"help");
    assert!(read);
    let whole = fs::read_to_string(examples().join("../host/help.txt")).expect("the help");
    assert_eq!(
        whole.split_once("\n\n").map(|(_, script)| script),
        Some(&*help)
    );
    let listed = listed(&help);
    for (words, does) in &listed {
        let (name, takes) = (words[0], words.len() - 1);
        assert!(!does.is_empty(), "{name}");
        for count in [takes + 1, takes + 2] {
            let thing = if takes == 1 { "argument" } else { "arguments" };
            let why = format!("{name} takes {takes} {thing}, not {count}");
            unread(&format!("{name}{}", " 0".repeat(count)), &why);
        }
    }
    let names: BTreeSet<&str> = listed.iter().map(|(words, _)| words[0]).collect();
    let every = EVERY
        .lines()
        .map(|line| line.split(' ').next().unwrap_or(""));
    assert_eq!(names, every.chain(["help", "list", "end"]).collect());
    assert_eq!(names.len(), listed.len());
}

#[test]
fn a_prompt_asks_line_by_line() {
    let mut out = Vec::new();
    let input = b"/g_new 1 0 0\n\n/quit\n/n_query 1";
    let read = prompt(&input[..], &examples(), &mut Independent::new(), &mut out);
    assert!(matches!(read, Ok(true)));
    assert_eq!(
        String::from_utf8(out).expect("it prints text"),
        "A command a line; help lists them, Ctrl-D ends.\n\
         > /g_new 1 0 0: ok\n> > /quit is no command\n\
         > /n_query 1: ok\n  /n_info 1 0 -1 -1 1 -1 -1\n> \n"
    );
}

#[test]
fn a_prompt_shows_each_answer_before_the_next_line_is_read() {
    /// Lines that a reader gets one at a time, each with what must stand in `out` by then.
    struct Typed<'a> {
        lines: Vec<(&'static str, &'static str)>,
        out: &'a RefCell<Vec<u8>>,
    }
    impl Read for Typed<'_> {
        fn read(&mut self, into: &mut [u8]) -> io::Result<usize> {
            if self.lines.is_empty() {
                return Ok(0);
            }
            let (line, shown) = self.lines.remove(0);
            let out = String::from_utf8(self.out.borrow().clone()).expect("it prints text");
            assert!(out.ends_with(shown), "{out}");
            into[..line.len()].copy_from_slice(line.as_bytes());
            Ok(line.len())
        }
    }
    struct Shown<'a>(&'a RefCell<Vec<u8>>);
    impl Write for Shown<'_> {
        fn write(&mut self, bytes: &[u8]) -> io::Result<usize> {
            self.0.borrow_mut().write(bytes)
        }
        fn flush(&mut self) -> io::Result<()> {
            Ok(())
        }
    }
    let out = RefCell::new(Vec::new());
    let typed = Typed {
        lines: vec![
            ("/g_new 1 0 0\n", "ends.\n> "),
            ("/n_free 2\n", "ok\n> "),
            ("/status\n", "no such node\n> "),
        ],
        out: &out,
    };
    let mut shown = BufWriter::new(Shown(&out));
    let input = BufReader::new(typed);
    let read = prompt(input, &examples(), &mut Independent::new(), &mut shown);
    assert!(matches!(read, Ok(true)));
}

/// Runs the program from another folder. Answers the exit status and both outputs.
fn program(words: &[&std::ffi::OsStr]) -> (i32, String, String) {
    let output = Command::new(PROGRAM)
        .arg("play")
        .args(words)
        .current_dir(env!("CARGO_TARGET_TMPDIR"))
        .output()
        .expect("the program runs");
    (
        output.status.code().expect("the program exits"),
        String::from_utf8(output.stdout).expect("it prints text"),
        String::from_utf8(output.stderr).expect("it prints text"),
    )
}

#[test]
fn the_program_plays_the_show() {
    let script = examples().join("show.txt");
    let kept = fs::read_to_string(examples().join("show.out")).expect("its output");
    let played = program(&[script.as_os_str()]);
    assert_eq!(played, (0, kept, String::new()));
}

#[test]
fn the_program_says_what_it_cannot_read() {
    let folder = Path::new(env!("CARGO_TARGET_TMPDIR"));
    let script = folder.join(format!("play-{}.txt", std::process::id()));
    fs::write(&script, "/quit\n/status\n").expect("a script");
    let (status, out, err) = program(&[script.as_os_str()]);
    fs::remove_file(&script).expect("it is there");
    assert_eq!(status, 1);
    assert_eq!(
        out,
        "line 1: /quit is no command\n/status: ok\n  /status.reply 0 0 1 0\n"
    );
    assert_eq!(err, "");
    let (status, out, err) = program(&["no such script".as_ref()]);
    assert_eq!((status, out.as_str()), (2, ""));
    assert!(err.starts_with("limudvek: no such script: "), "{err}");
    for words in [vec![], vec!["one".as_ref(), "two".as_ref()]] {
        let (status, out, err) = program(&words);
        assert_eq!((status, out.as_str()), (2, ""));
        assert!(err.starts_with("usage: "), "{err}");
    }
}

/// Plays a script from standard input. Answers the exit status and both outputs.
fn from_input(script: &[u8]) -> (i32, String, String) {
    let (status, out, err) = program_on(&["play", "-"], script);
    (status, String::from_utf8(out).expect("it prints text"), err)
}

#[test]
fn the_program_plays_standard_input() {
    let kept = fs::read_to_string(examples().join("show.out")).expect("its output");
    let script = fs::read(examples().join("show.txt")).expect("the script");
    assert_eq!(from_input(&script), (0, kept, String::new()));
    let (status, out, _) = from_input(b"/quit\n");
    assert_eq!((status, &*out), (1, "line 1: /quit is no command\n"));
}

#[test]
fn a_version_1_file_plays_as_its_twin() {
    let script = |file: &str| {
        format!(
            "/d_recv {file}\n/s_new \"great hall\" 1 0 0\n/s_get 1 \"room size\"\n\
             /d_recv {file}\n/s_new strings 2 0 0\ntree\n/status\nexport\n"
        )
    };
    let (twin, _) = played(script("strings.scsyndef").as_bytes());
    assert!(
        twin.ends_with("  385 bytes, 2 definitions: strings \"great hall\"\n"),
        "{twin}"
    );
    let original = script("strings-original.scsyndef");
    let (text, _) = played(original.as_bytes());
    assert_eq!(text.replace("-original", ""), twin);
    let (status, text, _) = from_input(original.as_bytes());
    assert_eq!((status, text.replace("-original", "")), (0, twin));
}
