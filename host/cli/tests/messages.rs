//! Scripts written as messages, and files of messages played: on the independent engine and, as the
//! built program, on the proved one.

mod common;

use cli::messages::messages;
use cli::play::messages::play;
use cli::play::{play as play_script, Applies};
use common::{examples, program_on, Independent, EVERY};
use std::fs;

/// The messages of a script beside the examples, what is said of lines that are none, and whether all
/// are some.
fn written(script: &[u8]) -> (Vec<u8>, String, bool) {
    let (mut out, mut named) = (Vec::new(), Vec::new());
    let all = messages::<Independent>(script, &examples(), &mut out, &mut named);
    let named = String::from_utf8(named).expect("it prints text");
    (out, named, all.expect("a list can be written to"))
}

/// What is printed for messages, and whether each was whole.
fn played(file: &[u8]) -> (String, bool) {
    let mut out = Vec::new();
    let whole = play(file, &mut Independent::new(), &mut out);
    let text = String::from_utf8(out).expect("it prints text");
    (text, whole.expect("a list can be written to"))
}

/// Messages, each after its length.
fn framed(messages: &[&[u8]]) -> Vec<u8> {
    let mut file = Vec::new();
    for message in messages {
        file.extend((message.len() as u32).to_be_bytes());
        file.extend_from_slice(message);
    }
    file
}

#[test]
fn a_script_as_messages() {
    let script =
        b"# a comment\n/s_new ping 1000 1 0   # one\n\n/n_set -1 freq 0.5\n/n_set 1000 0 -3\n\
                   /status\n/d_free \"\"";
    let expected = framed(&[
        b"/s_new\0\0,siii\0\0\0ping\0\0\0\0\0\0\x03\xe8\0\0\0\x01\0\0\0\0",
        b"/n_set\0\0,isf\0\0\0\0\xff\xff\xff\xfffreq\0\0\0\0\x3f\0\0\0",
        b"/n_set\0\0,iii\0\0\0\0\0\0\x03\xe8\0\0\0\0\xff\xff\xff\xfd",
        b"/status\0,\0\0\0",
        b"/d_free\0,s\0\0\0\0\0\0",
    ]);
    assert_eq!(written(script), (expected, String::new(), true));
    let ping = fs::read(examples().join("ping.scsyndef")).expect("the file");
    assert_eq!(ping.len(), 46);
    let load = [&b"/d_recv\0,b\0\0\0\0\0\x2e"[..], &ping, b"\0\0"].concat();
    let script = b"/d_recv ping.scsyndef\n";
    assert_eq!(written(script), (framed(&[&load]), String::new(), true));
    assert_eq!(written(b""), (Vec::new(), String::new(), true));
}

#[test]
fn lines_that_are_no_message_are_named_and_the_rest_is_written() {
    let script = b"/status\nexport\ntree\nhelp\n/quit\n/d_free \"a\\x80\"\n/n_free five\n\
                   /d_recv nofile\nlist\n/n_free 5\nend\nwhy  -8 # no\nstore none/there\nsave 5\n\
                   recall a 1 5\nrecall \"\\x80\" 1 5\ndrop a 1\nsettings\nstore\n";
    let (out, named, all) = written(script);
    assert_eq!(
        out,
        framed(&[b"/status\0,\0\0\0", b"/n_free\0,i\0\0\0\0\0\x05"])
    );
    assert!(!all);
    let lines: Vec<&str> = named.lines().collect();
    assert_eq!(
        lines[..6],
        [
            "limudvek: line 2: export: it has no address",
            "limudvek: line 3: tree: it has no address",
            "limudvek: line 4: help: it has no address",
            "limudvek: line 5: /quit is no command",
            "limudvek: line 6: /d_free \"a\\x80\": a name has a byte that is not from 1 to 127, or the \
             file is longer than 2,147,483,647 bytes",
            "limudvek: line 7: five is no integer of 32 bits",
        ]
    );
    assert!(
        lines[6].starts_with("limudvek: line 8: nofile: "),
        "{named}"
    );
    // The lines of a list are written one by one.
    assert_eq!(
        lines[7..],
        [
            "limudvek: line 9: list: it has no address",
            "limudvek: line 11: end: it has no address",
            "limudvek: line 12: why -8: it has no address",
            "limudvek: line 13: store none/there: it has no address",
            "limudvek: line 14: save 5: it has no address",
            "limudvek: line 15: recall a 1 5: it has no address",
            "limudvek: line 16: recall \"\\x80\" 1 5: a name has a byte that is not from 1 to 127, or the \
             file is longer than 2,147,483,647 bytes",
            "limudvek: line 17: drop a 1: it has no address",
            "limudvek: line 18: settings: it has no address",
            "limudvek: line 19: store: it has no address",
        ]
    );
}

#[test]
fn messages_and_their_answers() {
    let ping = fs::read(examples().join("ping.scsyndef")).expect("the file");
    let load = [&b"/d_recv\0,b\0\0\0\0\0\x2e"[..], &ping, b"\0\0"].concat();
    let file = framed(&[
        &load,
        b"/s_new\0\0,siii\0\0\0ping\0\0\0\0\0\0\x03\xe8\0\0\0\x01\0\0\0\0",
        b"/n_set\0\0,isf\0\0\0\0\xff\xff\xff\xfffreq\0\0\0\0\x3f\0\0\0",
        b"/s_get\0\0,is\0\0\0\x03\xe8freq\0\0\0\0",
        b"/g_queryTree\0\0\0\0,ii\0\0\0\0\0\0\0\0\x01",
        b"/n_free\0,i\0\0\0\0\0\x07",
        b"/d_recv\0,b\0\0\0\0\0\x04SCgf",
        b"",
        b"/n_free\0,i\0\0\0\0\0",
        b"/quit now\0\0\0,s\0\0\x1b[2\0",
    ]);
    let (text, whole) = played(&file);
    assert!(whole);
    assert_eq!(
        text,
        "/d_recv (46 bytes): ok\n\
         /s_new ping 1000 1 0: ok\n\
         /n_set -1 freq 0.5: ok\n\
         /s_get 1000 freq: ok\n  /n_set 1000 freq 0.5\n\
         /g_queryTree 0 1: ok\n  /g_queryTree.reply\n  0 group of 1\n    1000 ping: freq 0.5\n\
         /n_free 7: refused 17: there is no such node\n\
         /d_recv (4 bytes): refused 2: the file ends before this field does, at byte 4\n\
         message at byte 248: refused 26: this is no OSC message: it is cut or malformed, or bytes are \
         left over\n\
         message at byte 252: refused 26: this is no OSC message: it is cut or malformed, or bytes are \
         left over\n\
         \"/quit now\" \"\\x1b[2\": refused 27: no command has this address, or not with these \
         arguments\n"
    );
}

#[test]
fn a_cut_file_says_where() {
    let file = framed(&[b"/status\0,\0\0\0", b"/n_free\0,i\0\0\0\0\0\x05"]);
    let status = "/status: ok\n  /status.reply 0 0 1 0\n";
    let free = "/n_free 5: refused 17: there is no such node\n";
    for length in 0..=file.len() {
        let expected = match length {
            0 => (String::new(), true),
            1..=3 => {
                let cut = format!("byte 0: a message is cut: its length has {length} of 4 bytes\n");
                (cut, false)
            }
            4..=15 => {
                let there = length - 4;
                let cut = format!("byte 0: a message is cut: it has {there} of 12 bytes\n");
                (cut, false)
            }
            16 => (status.to_string(), true),
            17..=19 => {
                let there = length - 16;
                let cut = format!("byte 16: a message is cut: its length has {there} of 4 bytes\n");
                (format!("{status}{cut}"), false)
            }
            20..=35 => {
                let there = length - 20;
                let cut = format!("byte 16: a message is cut: it has {there} of 16 bytes\n");
                (format!("{status}{cut}"), false)
            }
            _ => (format!("{status}{free}"), true),
        };
        assert_eq!(played(&file[..length]), expected, "{length}");
    }
    // A length that promises more than a machine has.
    let (text, whole) = played(b"\xff\xff\xff\xffshort");
    assert_eq!(
        text,
        "byte 0: a message is cut: it has 5 of 4294967295 bytes\n"
    );
    assert!(!whole);
}

/// The lines that are printed, without the commands themselves.
fn answers(text: &str) -> Vec<&str> {
    text.lines()
        .map(|line| match line.split_once(": ") {
            Some((_, answer)) if !line.starts_with(' ') => answer,
            _ => line,
        })
        .collect()
}

#[test]
fn a_script_and_its_messages_go_the_same_way() {
    let show = fs::read_to_string(examples().join("show.txt")).expect("the script");
    for script in [EVERY, &show] {
        let no_message = |line: &str| {
            let word = line.split(' ').next().unwrap_or("");
            let stored = matches!(word, "store" | "save" | "recall" | "drop" | "settings");
            stored || matches!(word, "tree" | "export" | "list" | "end" | "why")
        };
        let lines = script.lines().filter(|line| !no_message(line));
        let script = lines.collect::<Vec<_>>().join("\n");
        let (file, named, all) = written(script.as_bytes());
        assert!(all, "{named}");
        let (mut by_script, mut by_messages) = (Independent::new(), Independent::new());
        let mut text = Vec::new();
        play_script(script.as_bytes(), &examples(), &mut by_script, &mut text)
            .expect("it is played");
        let mut other = Vec::new();
        play(&file[..], &mut by_messages, &mut other).expect("it is played");
        let (text, other) = (String::from_utf8(text), String::from_utf8(other));
        let (text, other) = (text.expect("text"), other.expect("text"));
        assert_eq!(answers(&text), answers(&other));
        assert!(by_script.words() == by_messages.words());
    }
}

#[test]
fn the_program_writes_messages_and_plays_them() {
    let show = fs::read(examples().join("show.txt")).expect("the script");
    let (expected, named, all) = written(&show);
    assert!(!all && named.contains("export"));
    let (status, file, err) = program_on(&["messages", "show.txt"], b"");
    assert_eq!((status, &file, &err), (1, &expected, &named));
    assert_eq!(program_on(&["messages", "-"], &show), (1, expected, named));
    let (text, whole) = played(&file);
    assert!(whole);
    let (status, out, err) = program_on(&["play", "--messages", "-"], &file);
    assert_eq!(String::from_utf8(out).as_deref(), Ok(&*text));
    assert_eq!((status, &*err), (0, ""));
    let folder = std::path::Path::new(env!("CARGO_TARGET_TMPDIR"));
    let name = folder.join(format!("show-{}.osc", std::process::id()));
    fs::write(&name, &file[..file.len() - 1]).expect("a file");
    let path = name.to_str().expect("its name is text");
    let (status, out, err) = program_on(&["play", "--messages", path], b"");
    fs::remove_file(&name).expect("it is there");
    let out = String::from_utf8(out).expect("it prints text");
    let last = out.lines().last().expect("it says something");
    assert!(
        last.starts_with("byte ") && last.contains(": a message is cut: "),
        "{last}"
    );
    assert_eq!((status, &*err), (1, ""));
    assert_eq!(
        program_on(&["messages", "-"], b"/status\n"),
        (0, framed(&[b"/status\0,\0\0\0"]), String::new())
    );
}

#[test]
fn the_program_says_what_it_cannot_read() {
    for words in [
        &["messages", "no such"][..],
        &["play", "--messages", "no such"],
    ] {
        let (status, out, err) = program_on(words, b"");
        assert_eq!((status, &out[..]), (2, &b""[..]));
        assert!(err.starts_with("limudvek: no such: "), "{err}");
    }
    for words in [
        &["messages"][..],
        &["messages", "one", "two"],
        &["play", "--messages"],
        &["play", "--messages", "one", "two"],
        &["page", "--messages", "one"],
    ] {
        let (status, out, err) = program_on(words, b"");
        assert_eq!((status, &out[..]), (2, &b""[..]));
        assert!(err.starts_with("usage: "), "{err}");
    }
}
