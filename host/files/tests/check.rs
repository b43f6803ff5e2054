//! `limudvek check`, as the built program.

mod common;

use common::{Folder, PROGRAM};
use independent::Version;
use std::ffi::OsStr;
use std::fs;
use std::os::unix::ffi::OsStrExt;
use std::process::{Command, Stdio};

const EMPTY_FILE: &[u8] = b"SCgf\0\0\0\x02\0\0";

/// A version 2 file of definitions of these names with every count 0.
fn file(names: &[&[u8]]) -> Vec<u8> {
    common::file(Version::Two, names)
}

/// Runs the program on these files, with nothing on standard error.
fn check<S: AsRef<OsStr>>(folder: &Folder, files: &[S]) -> (i32, String) {
    let command = [OsStr::new("check")];
    let words = command.into_iter().chain(files.iter().map(AsRef::as_ref));
    let (status, out, err) = folder.run(&words.collect::<Vec<_>>());
    assert_eq!(err, "");
    (status, out)
}

#[test]
fn accepted_files_list_their_names() {
    let folder = Folder::new("accepted");
    folder.write("none", EMPTY_FILE);
    folder.write("one", &file(&[b"ping"]));
    folder.write("two", &file(&[b"kick", b"long pad"]));
    let (status, out) = check(&folder, &["two", "none", "one"]);
    assert_eq!(
        out,
        "two: accepted, version 2, 2 definitions: kick \"long pad\"\n\
         none: accepted, version 2, 0 definitions\n\
         one: accepted, version 2, 1 definition: ping\n"
    );
    assert_eq!(status, 0);
}

#[test]
fn a_line_says_the_version() {
    let folder = Folder::new("version");
    folder.write("none", b"SCgf\0\0\0\x01\0\0");
    let names: [&[u8]; 2] = [b"kick", b"long pad"];
    folder.write("old", &common::file(Version::One, &names));
    folder.write("new", &common::file(Version::Two, &names));
    let (status, out) = check(&folder, &["old", "new", "none"]);
    assert_eq!(
        out,
        "old: accepted, version 1, 2 definitions: kick \"long pad\"\n\
         new: accepted, version 2, 2 definitions: kick \"long pad\"\n\
         none: accepted, version 1, 0 definitions\n"
    );
    assert_eq!(status, 0);
}

#[test]
fn as_many_and_as_long_names_as_there_can_be() {
    let folder = Folder::new("many");
    let names: Vec<Vec<u8>> = (0..32).map(|place| vec![b'A' + place; 255]).collect();
    let names: Vec<&[u8]> = names.iter().map(Vec::as_slice).collect();
    folder.write("many", &file(&names));
    let (status, out) = check(&folder, &["many"]);
    let shown: Vec<String> = names
        .iter()
        .map(|name| match name[0] {
            b'\\' => format!("\"{}\"", "\\\\".repeat(255)),
            letter => char::from(letter).to_string().repeat(255),
        })
        .collect();
    assert_eq!(
        out,
        format!(
            "many: accepted, version 2, 32 definitions: {}\n",
            shown.join(" ")
        )
    );
    assert_eq!(status, 0);
}

#[test]
fn a_name_that_could_be_misread_stands_in_quotes() {
    let folder = Folder::new("quotes");
    folder.write(
        "a",
        &file(&[b"great hall", b"a\"b", b"#1", b"440", b"-8", b"4a"]),
    );
    let (status, out) = check(&folder, &["a"]);
    assert_eq!(
        out,
        "a: accepted, version 2, 6 definitions: \"great hall\" \"a\\\"b\" \"#1\" \"440\" \"-8\" 4a\n"
    );
    assert_eq!(status, 0);
}

#[test]
fn a_name_cannot_steer_the_terminal() {
    let folder = Folder::new("escapes");
    folder.write(
        "a",
        &file(&[b"\x1b[2J", b"a\nb\r", b"c:\\d", b"\x01\x7f~ "]),
    );
    let every: Vec<u8> = (1..=127).collect();
    folder.write("b", &file(&[&every]));
    let (status, out) = check(&folder, &["a", "b"]);
    let (first, second) = out.split_once('\n').expect("two lines");
    assert_eq!(
        first,
        r#"a: accepted, version 2, 4 definitions: "\x1b[2J" "a\x0ab\x0d" "c:\\d" "\x01\x7f~ ""#
    );
    assert!(second.starts_with(r#"b: accepted, version 2, 1 definition: "\x01\x02"#));
    assert!(second.ends_with("}~\\x7f\"\n"));
    assert!(second
        .trim_end()
        .bytes()
        .all(|byte| (32..127).contains(&byte)));
    assert_eq!(status, 0);
}

#[test]
fn a_path_cannot_steer_the_terminal() {
    let folder = Folder::new("paths");
    let strange: [&[u8]; 4] = [
        b"a\x1b[31m\n",
        b"b\\",
        b"c\xff\x80",
        "d\u{e9}\u{9b}2J".as_bytes(),
    ];
    for name in strange {
        folder.write(OsStr::from_bytes(name), EMPTY_FILE);
    }
    let (status, out) = check(&folder, &strange.map(OsStr::from_bytes));
    assert_eq!(
        out,
        "a\\x1b[31m\\x0a: accepted, version 2, 0 definitions\n\
         b\\\\: accepted, version 2, 0 definitions\n\
         c\\xff\\x80: accepted, version 2, 0 definitions\n\
         d\u{e9}\\xc2\\x9b2J: accepted, version 2, 0 definitions\n"
    );
    assert_eq!(status, 0);
}

#[test]
fn every_refusal_has_its_line() {
    let folder = Folder::new("refused");
    let mut version = file(&[b"a"]);
    version[7] = 3;
    let mut count = file(&[b"a"]);
    count[12] = 255;
    let unit = |tail: &[u8]| {
        let mut bytes = file(&[b"a"]);
        bytes.truncate(27);
        bytes.extend_from_slice(tail);
        bytes
    };
    let mut long = file(&[b"a"]);
    long[12..16].copy_from_slice(&600i32.to_be_bytes());
    long.splice(16..16, [0; 2400]);
    let mut more = file(&[b"a"]);
    more.push(0);
    let files: [(&str, Vec<u8>, &str); 10] = [
        ("2", b"SCgf\0\0\0".to_vec(), "refused 2 at 4: the file ends before this field does"),
        ("3", b"RIFF\0\0\0\0".to_vec(), "refused 3 at 0: it does not begin with SCgf, so it is no synth definition file"),
        ("4", version, "refused 4 at 4: the version is neither 1 nor 2"),
        ("5", count, "refused 5 at 12: this count is out of bounds"),
        ("6", file(&[b"a", b""]), "refused 6 at 30: this is no name: a definition's is empty, or a byte is not from 1 to 127"),
        ("7", unit(b"\x01\x01U\x04"), "refused 7 at 30: this rate is not 0, 1, 2 or 3"),
        ("8", unit(b"\x01\0\0\0\0\0\x01\0\0\0\0\0\0\0\0\0\0"), "refused 8 at 40: this index names nothing that stands before it"),
        ("9", long, "refused 9 at 10: this definition takes more than 2,048 bytes in version 2"),
        ("10", file(&[b"a", b"b", b"a"]), "refused 10 at 50: an earlier definition has this name too"),
        ("11", more, "refused 11 at 30: bytes follow the last definition"),
    ];
    for (name, bytes, line) in &files {
        folder.write(name, bytes);
        let (status, out) = check(&folder, &[name]);
        assert_eq!(out, format!("{name}: {line}\n"));
        assert_eq!(status, 1);
    }
    let (status, out) = check(&folder, &files.each_ref().map(|(name, ..)| name));
    assert_eq!(out.lines().count(), 10);
    assert_eq!(status, 1);
}

#[test]
fn what_cannot_be_read_has_its_line() {
    let folder = Folder::new("unreadable");
    folder.write("good", EMPTY_FILE);
    folder.write("bad", b"SCg");
    folder.write("empty", b"");
    fs::create_dir(folder.0.join("folder")).expect("a folder");
    let files = [
        "good",
        "folder",
        "bad",
        "missing",
        "",
        "empty",
        "good/below",
        "good",
    ];
    let (status, out) = check(&folder, &files);
    assert_eq!(
        out,
        "good: accepted, version 2, 0 definitions\n\
         folder: unreadable\n\
         bad: refused 2 at 0: the file ends before this field does\n\
         missing: unreadable\n\
         : unreadable\n\
         empty: refused 2 at 0: the file ends before this field does\n\
         good/below: unreadable\n\
         good: accepted, version 2, 0 definitions\n"
    );
    assert_eq!(status, 2);
}

#[test]
fn the_worst_file_gives_the_status() {
    let folder = Folder::new("status");
    folder.write("good", EMPTY_FILE);
    folder.write("bad", b"");
    let status = |files: &[&str]| check(&folder, files).0;
    assert_eq!(status(&["good"]), 0);
    assert_eq!(status(&["good", "good"]), 0);
    assert_eq!(status(&["bad", "good"]), 1);
    assert_eq!(status(&["good", "bad"]), 1);
    assert_eq!(status(&["missing", "good"]), 2);
    assert_eq!(status(&["missing", "bad"]), 2);
    assert_eq!(status(&["bad", "missing"]), 2);
}

#[test]
fn with_other_words_it_gives_the_usage() {
    let folder = Folder::new("usage");
    folder.write("good", EMPTY_FILE);
    let words: [&[&str]; 8] = [
        &[],
        &["check"],
        &["good"],
        &["widen"],
        &["widen", "good"],
        &["widen", "good", "a", "b"],
        &["play", "good"],
        &["", "good"],
    ];
    for words in words {
        let (status, out, err) = folder.run(words);
        assert_eq!((status, out.as_str()), (2, ""));
        assert_eq!(
            err,
            "usage: limudvek check FILE...\n       limudvek widen IN OUT\n"
        );
    }
}

#[test]
fn large_files() {
    let folder = Folder::new("large");
    folder.write("zeros", &vec![0; 50_000_000]);
    // One definition of 10,000,000 constants, whole.
    let mut constants = file(&[b"a"]);
    constants[12..16].copy_from_slice(&10_000_000i32.to_be_bytes());
    constants.splice(16..16, vec![0; 40_000_000]);
    folder.write("constants", &constants);
    constants.truncate(30_000_001);
    folder.write("cut", &constants);
    let (status, out) = check(&folder, &["zeros", "constants", "cut"]);
    assert_eq!(
        out,
        "zeros: refused 3 at 0: it does not begin with SCgf, so it is no synth definition file\n\
         constants: refused 9 at 10: this definition takes more than 2,048 bytes in version 2\n\
         cut: refused 2 at 30000000: the file ends before this field does\n"
    );
    assert_eq!(status, 1);
}

#[test]
fn closed_standard_output_is_no_panic() {
    let folder = Folder::new("closed");
    folder.write("good", EMPTY_FILE);
    let mut child = Command::new(PROGRAM)
        .arg("check")
        .args(std::iter::repeat_n("good", 20_000))
        .current_dir(&folder.0)
        .stdout(Stdio::piped())
        .stderr(Stdio::piped())
        .spawn()
        .expect("the program runs");
    drop(child.stdout.take());
    let output = child.wait_with_output().expect("the program ends");
    assert_eq!(output.status.code(), Some(2));
    let err = String::from_utf8_lossy(&output.stderr);
    assert!(err.starts_with("limudvek: standard output: "), "{err}");
}
