//! `limudvek widen IN OUT`: writes the version 2 file of the same definitions.

use crate::{check, UNREADABLE};
use std::ffi::OsStr;
use std::os::unix::ffi::OsStrExt;
use std::path::Path;
use synthdef::{file, show};

/// Answers the exit status. The file that is written may be the one that was read.
pub fn file(from: &OsStr, to: &OsStr) -> u8 {
    let bytes = match check::read(from) {
        Ok(bytes) => bytes,
        Err((line, status)) => {
            eprintln!("{line}");
            return status;
        }
    };
    let mut twin = vec![0; synthdef::LONGEST];
    let length = synthdef::widen(&bytes, &mut twin);
    match file::replace(Path::new(to), &twin[..length]) {
        Ok(()) => 0,
        Err(error) => {
            eprintln!("limudvek: {}: {error}", show::path(to.as_bytes()));
            UNREADABLE
        }
    }
}
