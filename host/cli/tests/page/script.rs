//! Commands as lines of a script, and random scripts.

use independent::engine::{Commands, Theme};
use independent::{Call, Engine, Random};
use std::fs;
use std::path::{Path, PathBuf};

/// A folder of one test's own, removed at its end.
pub struct Folder(PathBuf);

impl Folder {
    pub fn new(test: &str) -> Folder {
        let name = format!("page-{test}-{}", std::process::id());
        let path = Path::new(env!("CARGO_TARGET_TMPDIR")).join(name);
        fs::create_dir_all(&path).expect("a folder for the test");
        Folder(path)
    }

    pub fn path(&self) -> &Path {
        &self.0
    }

    pub fn write(&self, name: &str, bytes: &[u8]) {
        fs::write(self.0.join(name), bytes).expect("a file for the test");
    }
}

impl Drop for Folder {
    fn drop(&mut self) {
        let _ = fs::remove_dir_all(&self.0);
    }
}

/// Bytes in quotes.
pub fn quoted(bytes: &[u8]) -> String {
    let letter = |&byte: &u8| match byte {
        b'"' | b'\\' => format!("\\{}", char::from(byte)),
        b' '..=b'~' => char::from(byte).to_string(),
        _ => format!("\\x{byte:02x}"),
    };
    format!("\"{}\"", bytes.iter().map(letter).collect::<String>())
}

/// A command's line. The file of a load is written to the folder under this name.
fn line(call: &Call, folder: &Folder, file: &str) -> String {
    let [a, b, c, _, _] = call.numbers.map(|number| number as i32);
    let name = quoted(&call.bytes);
    let control = if call.op % 2 == 1 {
        b.to_string()
    } else {
        name.clone()
    };
    let value = match call.numbers {
        [.., 1, pattern] => (pattern as i32).to_string(),
        [.., pattern] => format!("{:?}", f32::from_bits(pattern)),
    };
    match call.op {
        1 => {
            folder.write(file, &call.bytes);
            format!("/d_recv {file}")
        }
        2 => format!("/d_free {name}"),
        3 => format!("/s_new {name} {a} {b} {c}"),
        4 => format!("/g_new {a} {b} {c}"),
        5 => format!("/n_free {a}"),
        6 => format!("/g_freeAll {a}"),
        7 => format!("/g_deepFree {a}"),
        8 => format!("/n_before {a} {b}"),
        9 => format!("/n_after {a} {b}"),
        10 => format!("/g_head {a} {b}"),
        11 => format!("/g_tail {a} {b}"),
        12 => format!("/n_run {a} {b}"),
        13 | 14 => format!("/n_set {a} {control} {value}"),
        15 | 16 => format!("/n_fill {a} {control} {c} {value}"),
        17 | 18 => format!("/n_map {a} {control} {c}"),
        19 => format!("/c_set {a} {value}"),
        20 => format!("/c_fill {a} {c} {value}"),
        21 | 22 => format!("/s_get {a} {control}"),
        23 => format!("/c_get {a}"),
        24 => format!("/n_query {a}"),
        25 => format!("/g_queryTree {a} {b}"),
        26 => "/status".to_string(),
        27 => "export".to_string(),
        _ => panic!("{call:?} is no command"),
    }
}

/// A line of a script, and its command where it has one.
pub struct Sent {
    pub number: usize,
    pub call: Option<Call>,
}

/// A command whose value a script can hold: of the NaNs there is one.
fn readable(mut call: Call) -> Call {
    if call.numbers[3] == 0 && f32::from_bits(call.numbers[4]).is_nan() {
        call.numbers[4] = f32::NAN.to_bits();
    }
    call
}

/// A random script: its text, and the lines that are steps. Some hold no command: `tree`, and what
/// can't be read. Between them stand comments and empty lines.
pub fn random(seed: u64, theme: Theme, length: usize, folder: &Folder) -> (String, Vec<Sent>) {
    let mut random = Random::new(seed);
    let mut commands = Commands::new(Random::new(random.bits()), theme);
    let mut model = Engine::new();
    let mut reply = vec![0; 1 << 20];
    let mut text = String::new();
    let mut sent = Vec::new();
    let mut number = 0;
    while sent.len() < length {
        number += 1;
        if random.below(40) == 0 {
            text.push_str(random.one_of(&["\n", "  # a comment: <b>&amp;\n"]));
            continue;
        }
        let call = readable(commands.next(&model));
        let call = Some(call).filter(|call| call.command().is_some() && random.below(40) > 0);
        match &call {
            Some(call) => {
                let _ = model.apply(&call.command().expect("it is one"), &mut reply);
                let file = format!("{seed}-{number}.scsyndef");
                text.push_str(&line(call, folder, &file));
                text.push_str(random.one_of(&["\n", "\n", "  # a # comment\n"]));
            }
            None => text.push_str(random.one_of(&["tree\n", "/quit\n", "/n_free \"<5>\"\n"])),
        }
        sent.push(Sent { number, call });
    }
    (text, sent)
}
