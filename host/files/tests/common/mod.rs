//! Runs the built program.

use independent::{write_as, Definition, Version};
use std::ffi::OsStr;
use std::fs;
use std::path::{Path, PathBuf};
use std::process::Command;

pub const PROGRAM: &str = env!("CARGO_BIN_EXE_limudvek-files");

/// A folder of one test's own, removed at its end.
pub struct Folder(pub PathBuf);

impl Folder {
    pub fn new(test: &str) -> Folder {
        let path =
            Path::new(env!("CARGO_TARGET_TMPDIR")).join(format!("{test}-{}", std::process::id()));
        fs::create_dir_all(&path).expect("a folder for the test");
        Folder(path)
    }

    pub fn write(&self, name: impl AsRef<Path>, bytes: &[u8]) {
        fs::write(self.0.join(name), bytes).expect("a file for the test");
    }

    /// Runs the program in the folder. Answers the exit status, standard output and standard error.
    pub fn run<S: AsRef<OsStr>>(&self, words: &[S]) -> (i32, String, String) {
        let output = Command::new(PROGRAM)
            .args(words)
            .current_dir(&self.0)
            .output()
            .expect("the program runs");
        (
            output.status.code().expect("the program exits"),
            String::from_utf8(output.stdout).expect("it prints text"),
            String::from_utf8(output.stderr).expect("it prints text"),
        )
    }
}

impl Drop for Folder {
    fn drop(&mut self) {
        let _ = fs::remove_dir_all(&self.0);
    }
}

/// A file of definitions of these names with every count 0.
pub fn file(version: Version, names: &[&[u8]]) -> Vec<u8> {
    let definitions = names.iter().map(|name| Definition {
        name: name.to_vec(),
        ..Definition::default()
    });
    write_as(version, &definitions.collect::<Vec<_>>()).bytes
}
