//! Saved settings in a script, and the file that keeps them: on the independent engine and, as the built program, on the proved one.

mod common;

use cli::play::{play, prompt};
use common::{examples, program_on, Independent};
use independent::read_store;
use std::fs;
use std::path::{Path, PathBuf};

/// How long a kept store is.
const BYTES: usize = 65_536;

/// A folder of one test's own, removed at its end.
struct Folder(PathBuf);

impl Folder {
    fn new(test: &str) -> Folder {
        let name = format!("settings-{test}-{}", std::process::id());
        let path = Path::new(env!("CARGO_TARGET_TMPDIR")).join(name);
        fs::create_dir_all(&path).expect("a folder for the test");
        Folder(path)
    }

    /// A path in it, as a script has it.
    fn file(&self, name: &str) -> String {
        let path = self.0.join(name);
        path.to_str().expect("its name is text").to_string()
    }

    /// What it holds, by rising name.
    fn names(&self) -> Vec<String> {
        let files = fs::read_dir(&self.0).expect("the folder");
        let name = |file: fs::DirEntry| file.file_name().into_string().expect("text");
        let mut names: Vec<String> = files.map(|file| name(file.expect("a file"))).collect();
        names.sort();
        names
    }
}

impl Drop for Folder {
    fn drop(&mut self) {
        let _ = fs::remove_dir_all(&self.0);
    }
}

/// What both engines print for a script, and whether each line could be read. Its files stand beside the examples.
fn played(script: &str) -> (String, bool) {
    let mut out = Vec::new();
    let read = play(
        script.as_bytes(),
        &examples(),
        &mut Independent::new(),
        &mut out,
    );
    let read = read.expect("a list can be written to");
    let text = String::from_utf8(out).expect("it prints text");
    let (status, by_program, err) = program_on(&["play", "-"], script.as_bytes());
    assert_eq!((status, &*err), (i32::from(!read), ""));
    assert_eq!(String::from_utf8(by_program).as_deref(), Ok(&*text));
    (text, read)
}

/// The lines that are printed for the last so many lines of a script that begins with two synths: 10 of ping, 20 of rain.
fn prints(lines: &str, expected: &[&str]) {
    let start = "/d_recv ping.scsyndef\n/d_recv rain.scsyndef\n/g_new 1 1 0\n/s_new ping 10 1 0\n\
                 /s_new rain 20 1 0\n";
    let (text, read) = played(&format!("{start}{lines}"));
    let printed: Vec<&str> = text.lines().skip(start.lines().count()).collect();
    assert_eq!(printed, expected);
    let unread = expected.iter().any(|line| line.starts_with("line "));
    assert_eq!(read, !unread);
}

#[test]
fn saved_listed_recalled_and_dropped() {
    prints(
        "store\nsettings\nsave 10\n/n_set 10 freq 220\nsave -1\nsave 10\n/n_set 10 freq nan\n\
         save 10\nsettings\nrecall ping 2 10\n/s_get 10 freq\nrecall rain 1 10\n/s_get 10 freq\n\
         drop ping 1\ndrop ping 3\nsave 10\ndrop rain 1\nsettings\n",
        &[
            "store: ok",
            "settings: ok",
            "  0 of 65536 bytes",
            "save 10: ok",
            "  ping, version 1",
            "/n_set 10 freq 220: ok",
            "save -1: ok",
            "  rain, version 1",
            "save 10: ok",
            "  ping, version 2",
            "/n_set 10 freq nan: ok",
            "save 10: ok",
            "  ping, version 3",
            "settings: ok",
            "  ping, highest version 3",
            "    version 1: freq 440.0",
            "    version 2: freq 220.0",
            "    version 3: freq NaN",
            "  rain, highest version 1",
            "    version 1: amp 0.25, fade 2.0, pan 0.0",
            "  120 of 65536 bytes",
            "recall ping 2 10: ok",
            "/s_get 10 freq: ok",
            "  /n_set 10 freq 220.0",
            "recall rain 1 10: ok",
            "/s_get 10 freq: ok",
            "  /n_set 10 freq 220.0",
            "drop ping 1: ok",
            "drop ping 3: ok",
            "save 10: ok",
            "  ping, version 4",
            "drop rain 1: ok",
            "settings: ok",
            "  ping, highest version 4",
            "    version 2: freq 220.0",
            "    version 4: freq 220.0",
            "  rain, highest version 1",
            "  64 of 65536 bytes",
        ],
    );
}

#[test]
fn refusals_in_words() {
    let saves = "save 10\n".repeat(17);
    let mut expected = vec!["store: ok".to_string()];
    for version in 1..=16 {
        expected.push("save 10: ok".to_string());
        expected.push(format!("  ping, version {version}"));
    }
    let refused = [
        "save 10: refused 30: 16 versions are saved under this name already",
        "save 7: refused 17: there is no such node",
        "save 1: refused 18: a group or a synth is needed and this is none, or the root stands where it can't",
        "recall ping 17 10: refused 32: no such version is saved under this name",
        "recall rain 1 10: refused 32: no such version is saved under this name",
        "recall ping 1 -8: refused 17: there is no such node",
        "drop ping 0: refused 32: no such version is saved under this name",
        "drop \"\" 4294967295: refused 32: no such version is saved under this name",
    ];
    expected.extend(refused.map(str::to_string));
    let lines =
        "save 7\nsave 1\nrecall ping 17 10\nrecall rain 1 10\nrecall ping 1 -8\ndrop ping 0\n\
                 drop \"\" 4294967295\n";
    let expected: Vec<&str> = expected.iter().map(String::as_str).collect();
    prints(&format!("store\n{saves}{lines}"), &expected);
}

#[test]
fn lines_without_a_store_and_a_second_store() {
    let none = "no store is lent yet: store FILE does that";
    let expected = [
        format!("line 6: {none}"),
        format!("line 7: {none}"),
        format!("line 8: {none}"),
        format!("line 9: {none}"),
        "store: ok".to_string(),
        "line 11: a store is lent already".to_string(),
        "line 12: a store is lent already".to_string(),
    ];
    let expected: Vec<&str> = expected.iter().map(String::as_str).collect();
    let lines = "save 10\nrecall ping 1 10\ndrop ping 1\nsettings\nstore\nstore\nstore any\n";
    prints(lines, &expected);
}

#[test]
fn lines_that_cannot_be_read() {
    prints(
        "save\nsave ten\nrecall ping 10\nrecall ping -1 10\nrecall ping 4294967296 10\ndrop ping one\n\
         settings 1\nstore a b\nsave \"10\"\n",
        &[
            "line 6: save takes 1 argument, not 0",
            "line 7: ten is no integer of 32 bits",
            "line 8: recall takes 3 arguments, not 2",
            "line 9: -1 is no version from 0 to 4294967295",
            "line 10: 4294967296 is no version from 0 to 4294967295",
            "line 11: one is no version from 0 to 4294967295",
            "line 12: settings takes 0 arguments, not 1",
            "line 13: store takes 1 argument, not 2",
            "line 14: 10 is no integer of 32 bits",
        ],
    );
}

/// A recall is a command, and the engine takes none in a list; the other lines are none.
#[test]
fn between_list_and_end() {
    prints(
        "store\nsave 10\nlist\n/n_set 10 freq 1\nrecall ping 1 10\nend\n/s_get 10 freq\n\
         list\nsave 10\nend\nlist\nstore\nend\n",
        &[
            "store: ok",
            "save 10: ok",
            "  ping, version 1",
            "list of 2 commands: refused 34: a list has at most 512 commands, and none of them replies or \
             recalls; that of line 10 does: recall ping 1 10",
            "/s_get 10 freq: ok",
            "  /n_set 10 freq 440.0",
            "line 14: between list and end stand commands only",
            "list of 0 commands: not sent, since line 14 can't be read",
            "line 17: between list and end stand commands only",
            "list of 0 commands: not sent, since line 17 can't be read",
        ],
    );
}

/// Plays a script in a folder on the independent engine. Answers what is printed.
fn kept(lines: &str, folder: &Folder) -> String {
    let start = format!(
        "/d_recv {}\n/s_new ping 10 1 0\n",
        examples().join("ping.scsyndef").display()
    );
    let script = format!("{start}{lines}");
    let mut out = Vec::new();
    play(
        script.as_bytes(),
        &folder.0,
        &mut Independent::new(),
        &mut out,
    )
    .expect("a list can be written to");
    let text = String::from_utf8(out).expect("it prints text");
    let own = text.lines().skip(start.lines().count());
    own.map(|line| format!("{line}\n")).collect()
}

/// A missing file is an empty store, which is made at the end; the next script goes on from it. FILE is named from the script's folder.
#[test]
fn a_file_keeps_them() {
    let folder = Folder::new("file");
    assert_eq!(kept("store evening\n", &folder), "store evening: ok\n");
    let path = folder.file("evening");
    assert_eq!(fs::read(&path).expect("the store"), vec![0; BYTES]);
    let save = "store evening: ok\nsave 10: ok\n  ping, version 1\ndrop ping 1: ok\n";
    assert_eq!(kept("store evening\nsave 10\ndrop ping 1\n", &folder), save);
    let again = save.replace("version 1", "version 2");
    let lines = "store evening\nsave 10\ndrop ping 1\n";
    let refused = "drop ping 1: refused 32: no such version is saved under this name";
    let again = again.replace("drop ping 1: ok", refused);
    assert_eq!(kept(lines, &folder), again);
    let store = fs::read(&path).expect("the store");
    assert_eq!(store.len(), BYTES);
    let entries = read_store(&store).expect("it is formed");
    assert_eq!((entries.len(), entries[0].highest), (1, 2));
    assert_eq!(folder.names(), ["evening"]);
    // The program on the same file, from its own folder, in a script file and by a page.
    let script = folder.file("show.txt");
    fs::write(&script, "store evening\nsettings\n").expect("a script");
    let (status, out, _) = program_on(&["play", &script], b"");
    let expected =
        "store evening: ok\nsettings: ok\n  ping, highest version 2\n    version 2: freq 440.0\n\
                    \x20 32 of 65536 bytes\n";
    assert_eq!(
        (status, String::from_utf8(out).as_deref()),
        (0, Ok(expected))
    );
    fs::write(&script, "store evening\ndrop ping 2\n").expect("a script");
    let (status, ..) = program_on(&["page", &script], b"");
    assert_eq!(status, 0);
    let entries = read_store(&fs::read(&path).expect("the store")).expect("it is formed");
    assert!(entries[0].versions.is_empty() && entries[0].highest == 2);
    // Messages play nothing and leave it alone.
    fs::remove_file(&path).expect("it is there");
    let (status, ..) = program_on(&["messages", &script], b"");
    assert_eq!(status, 1);
    assert_eq!(folder.names(), ["show.txt"]);
}

/// A file that is shorter or full is one too, with anything behind a closing 0.
#[test]
fn files_that_are_stores() {
    let folder = Folder::new("stores");
    let path = folder.file("a");
    let one = b"\x01\0\x04ping\x04\0\x04\0\0\0\x07\x02\0\x04\0\0\0\x05";
    let mut full = vec![0xff; BYTES];
    full[..one.len()].copy_from_slice(one);
    full[one.len()] = 0;
    for bytes in [&one[..], &[&one[..], b"\0junk"].concat(), &full] {
        fs::write(&path, bytes).expect("a store");
        let text = kept("store a\nsave 10\n", &folder);
        assert_eq!(text, "store a: ok\nsave 10: ok\n  ping, version 8\n");
        let store = fs::read(&path).expect("the store");
        assert!(store.len() == BYTES && read_store(&store).is_some());
        assert!(store[50..].iter().all(|&byte| byte == 0));
    }
}

/// A file that is too long, not well formed, cut, or can't be read is said, and left alone; no store is lent.
#[test]
fn files_that_are_none_are_left_alone() {
    let folder = Folder::new("none");
    let path = folder.file("a");
    let cut = b"\x01\0\x04ping\x04\0\x04\0\0\0\x07\x02\0\x04\0\0\0";
    let none = "line 4: no store is lent yet: store FILE does that\n";
    for (bytes, why) in [
        (vec![0; BYTES + 1], "it has more than 65536 bytes"),
        (cut.to_vec(), "this is no well-formed store of settings"),
        (
            b"a text".to_vec(),
            "this is no well-formed store of settings",
        ),
    ] {
        fs::write(&path, &bytes).expect("a file");
        let text = kept("store a\nsave 10\n", &folder);
        assert_eq!(text, format!("line 3: a: {why}\n{none}"));
        assert_eq!(fs::read(&path).expect("the file"), bytes);
        assert_eq!(folder.names(), ["a"]);
    }
    let text = kept("store .\nsave 10\n", &folder);
    assert!(
        text.starts_with("line 3: .: ") && text.ends_with(none),
        "{text}"
    );
}

/// A store that can't be written back is said at the end.
#[test]
fn a_store_that_is_not_kept_is_said() {
    let folder = Folder::new("unkept");
    let text = kept("store no/such/folder\nsave 10\n", &folder);
    let lines: Vec<&str> = text.lines().collect();
    assert_eq!(lines[..2], ["store no/such/folder: ok", "save 10: ok"]);
    assert!(lines[3].starts_with("line 3: no/such/folder: "), "{text}");
    assert!(lines[3].ends_with("; the settings were not kept"), "{text}");
    let script = format!("store {}\n", folder.file("no/such"));
    let (status, out, _) = program_on(&["play", "-"], script.as_bytes());
    assert_eq!(status, 1);
    let out = String::from_utf8(out).expect("it prints text");
    assert!(out.ends_with("; the settings were not kept\n"), "{out}");
    let (status, out, _) = program_on(&["page", "-"], script.as_bytes());
    let out = String::from_utf8(out).expect("it prints text");
    assert!(status == 1 && out.contains("the settings were not kept"));
}

/// Where the output breaks off, what was saved before that is kept.
#[test]
fn a_broken_output_loses_nothing() {
    struct Broken(usize);
    impl std::io::Write for Broken {
        fn write(&mut self, bytes: &[u8]) -> std::io::Result<usize> {
            self.0 = self
                .0
                .checked_sub(1)
                .ok_or(std::io::ErrorKind::BrokenPipe)?;
            Ok(bytes.len())
        }
        fn flush(&mut self) -> std::io::Result<()> {
            Ok(())
        }
    }
    let folder = Folder::new("broken");
    let script = format!(
        "/d_recv {}\n/s_new ping 10 1 0\nstore a\nsave 10\nsave 10\nsave 10\n",
        examples().join("ping.scsyndef").display()
    );
    // It breaks at the second save, which is done.
    let out = &mut std::io::LineWriter::new(Broken(6));
    let stopped = play(script.as_bytes(), &folder.0, &mut Independent::new(), out);
    assert!(stopped.is_err());
    let store = fs::read(folder.file("a")).expect("the store");
    let entries = read_store(&store).expect("it is formed");
    assert!(
        (1..3).contains(&entries[0].highest),
        "{}",
        entries[0].highest
    );
}

#[test]
fn a_prompt_keeps_them() {
    let folder = Folder::new("prompt");
    let mut out = Vec::new();
    let input = "store a\nsave 0\nstore none/there\n";
    let read = prompt(
        input.as_bytes(),
        &folder.0,
        &mut Independent::new(),
        &mut out,
    );
    assert!(matches!(read, Ok(true)));
    assert_eq!(
        String::from_utf8(out).expect("it prints text"),
        "A command a line; help lists them, Ctrl-D ends.\n> store a: ok\n> save 0: refused 18: a group or a \
         synth is needed and this is none, or the root stands where it can't\n> a store is lent already\n> \n"
    );
    assert_eq!(fs::read(folder.file("a")).expect("the store").len(), BYTES);
}
