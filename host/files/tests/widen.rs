//! `limudvek widen`, as the built program.

mod common;

use common::{file, Folder};
use independent::{write, write_as, Random, Shape, Version, MOST_BYTES, MOST_DEFINITIONS};
use std::fs;
use std::os::unix::fs::{symlink, FileTypeExt, PermissionsExt};

/// Runs the command. Answers the exit status and standard error; it prints nothing else.
fn widen(folder: &Folder, from: &str, to: &str) -> (i32, String) {
    let (status, out, err) = folder.run(&["widen", from, to]);
    assert_eq!(out, "");
    (status, err)
}

/// The command goes well.
fn widened(folder: &Folder, from: &str, to: &str) {
    assert_eq!(widen(folder, from, to), (0, String::new()));
}

fn read(folder: &Folder, name: &str) -> Vec<u8> {
    fs::read(folder.0.join(name)).expect("it can be read")
}

/// All that lies in the folder, by name.
fn names(folder: &Folder) -> Vec<String> {
    let entries = fs::read_dir(&folder.0).expect("the folder");
    let name = |entry: fs::DirEntry| entry.file_name().into_string();
    let names = entries.map(|entry| name(entry.expect("an entry")).expect("it is text"));
    let mut names: Vec<String> = names.collect();
    names.sort();
    names
}

fn old() -> Vec<u8> {
    file(Version::One, &[b"ping", b"pong"])
}

fn new() -> Vec<u8> {
    file(Version::Two, &[b"ping", b"pong"])
}

#[test]
fn a_file_to_another() {
    let folder = Folder::new("another");
    folder.write("old", &old());
    widened(&folder, "old", "new");
    assert_eq!(read(&folder, "new"), new());
    assert_eq!(read(&folder, "old"), old());
    // Over a longer file, and one of version 2, which is its own twin.
    folder.write("long", &[7; 5000]);
    widened(&folder, "new", "long");
    assert_eq!(read(&folder, "long"), new());
    assert_eq!(names(&folder), ["long", "new", "old"]);
}

#[test]
fn a_file_to_itself() {
    let folder = Folder::new("itself");
    let own = folder.0.join("own");
    fs::create_dir(folder.0.join("below")).expect("a folder");
    let same = ["own", "./own", "below/../own", "link", "below/link"];
    symlink("own", folder.0.join("link")).expect("a link");
    symlink("../link", folder.0.join("below/link")).expect("a link");
    for to in same {
        folder.write("own", &old());
        widened(&folder, "own", to);
        assert_eq!(read(&folder, "own"), new(), "{to}");
    }
    for from in same {
        folder.write("own", &old());
        widened(&folder, from, "own");
        assert_eq!(read(&folder, "own"), new(), "{from}");
    }
    // The links are links still.
    for link in ["link", "below/link"] {
        let kind = fs::symlink_metadata(folder.0.join(link)).expect("a link");
        assert!(kind.is_symlink());
    }
    assert!(fs::metadata(own).expect("a file").is_file());
    assert_eq!(names(&folder), ["below", "link", "own"]);
}

#[test]
fn what_is_refused_leaves_the_other_file_alone() {
    let folder = Folder::new("refused");
    folder.write("cut", &old()[..20]);
    let mut version = old();
    version[7] = 3;
    folder.write("version", &version);
    folder.write("kept", b"kept");
    let cut = "cut: refused 2 at 19: the file ends before this field does\n";
    let version = "version: refused 4 at 4: the version is neither 1 nor 2\n";
    for (from, line) in [("cut", cut), ("version", version)] {
        let before = read(&folder, from);
        for to in ["kept", "none", from, "none/none"] {
            assert_eq!(widen(&folder, from, to), (1, line.to_string()));
        }
        assert_eq!(read(&folder, from), before);
    }
    for from in ["missing", ".", "", "kept/below"] {
        for to in ["kept", "none"] {
            let (status, err) = widen(&folder, from, to);
            assert_eq!((status, err), (2, format!("{from}: unreadable\n")));
        }
    }
    assert_eq!(read(&folder, "kept"), b"kept");
    assert_eq!(names(&folder), ["cut", "kept", "version"]);
}

#[test]
fn what_cannot_be_written_is_said() {
    let folder = Folder::new("unwritten");
    folder.write("old", &old());
    fs::create_dir(folder.0.join("below")).expect("a folder");
    for to in ["below", "none/new", "old/new", "", "none/"] {
        let (status, err) = widen(&folder, "old", to);
        assert_eq!(status, 2, "{to}");
        assert!(err.starts_with(&format!("limudvek: {to}: ")), "{err}");
        assert_eq!(err.lines().count(), 1);
    }
    assert_eq!(read(&folder, "old"), old());
    assert_eq!(names(&folder), ["below", "old"]);
}

#[test]
fn what_is_no_plain_file_stays_so() {
    let folder = Folder::new("device");
    folder.write("old", &old());
    widened(&folder, "old", "/dev/null");
    let null = fs::metadata("/dev/null").expect("it is there");
    assert!(null.file_type().is_char_device());
    let (status, out, err) = folder.run(&["widen", "old", "/dev/stdout"]);
    assert_eq!((status, err.as_str()), (0, ""));
    assert_eq!(out.as_bytes(), new());
    let (status, err) = widen(&folder, "old", "/dev/full");
    assert_eq!(status, 2);
    assert!(err.starts_with("limudvek: /dev/full: "), "{err}");
}

#[test]
fn permissions_stay() {
    let folder = Folder::new("permissions");
    folder.write("own", &old());
    let own = folder.0.join("own");
    for mode in [0o600, 0o640, 0o755] {
        fs::set_permissions(&own, fs::Permissions::from_mode(mode)).expect("the owner's");
        widened(&folder, "own", "own");
        let now = fs::metadata(&own).expect("a file").permissions().mode();
        assert_eq!(now & 0o777, mode);
    }
    assert_eq!(read(&folder, "own"), new());
}

#[test]
fn the_longest_files() {
    let folder = Folder::new("longest");
    let mut random = Random::new(1);
    for shape in Shape::ALL {
        let mut definitions = random.definitions(MOST_DEFINITIONS, &[shape]);
        for (place, definition) in definitions.iter_mut().enumerate() {
            definition.name = vec![b'A' + place as u8];
            random.lengthen(definition, MOST_BYTES);
        }
        folder.write("old", &write_as(Version::One, &definitions).bytes);
        widened(&folder, "old", "new");
        let twin = write(&definitions).bytes;
        assert_eq!(twin.len(), 65_546);
        assert_eq!(read(&folder, "new"), twin);
    }
}
