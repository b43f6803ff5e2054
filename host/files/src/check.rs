//! `limudvek check FILE...`: a line for each file says whether it is a SynthDef file.

use crate::{REFUSED, UNREADABLE};
use std::ffi::{OsStr, OsString};
use std::fs;
use std::io::{self, Write};
use std::os::unix::ffi::OsStrExt;
use synthdef::show;

/// Prints the lines. The exit status is that of the worst file.
pub fn files(files: &[OsString]) -> u8 {
    let mut worst = 0;
    for file in files {
        let (line, status) = match read(file) {
            Ok(bytes) => (accepted(file, &bytes), 0),
            Err(refused) => refused,
        };
        if let Err(error) = io::stdout().write_all(format!("{line}\n").as_bytes()) {
            eprintln!("limudvek: standard output: {error}");
            return UNREADABLE;
        }
        worst = worst.max(status);
    }
    worst
}

/// The bytes of an accepted file, or the line and the status of another.
pub fn read(file: &OsStr) -> Result<Vec<u8>, (String, u8)> {
    let shown = show::path(file.as_bytes());
    let bytes = fs::read(file).map_err(|_| (format!("{shown}: unreadable"), UNREADABLE))?;
    synthdef::check(&bytes).map_err(|refused| (format!("{shown}: {refused}"), REFUSED))?;
    Ok(bytes)
}

/// The line of an accepted file.
fn accepted(file: &OsStr, bytes: &[u8]) -> String {
    let shown = show::path(file.as_bytes());
    let version = synthdef::version(bytes);
    let definitions = show::definitions(bytes);
    format!("{shown}: accepted, version {version}, {definitions}")
}
