//! Files that are written whole.

use std::fs::{self, File, OpenOptions};
use std::io::{self, ErrorKind, Write};
use std::path::{Path, PathBuf};
use std::process;

/// Makes these bytes a file's contents, all of them or none: they are written to a new file in its
/// folder, which then takes its name. What is no plain file, as a pipe, is written to as it is.
pub fn replace(path: &Path, bytes: &[u8]) -> io::Result<()> {
    let permissions = match OpenOptions::new().write(true).open(path) {
        Ok(mut old) => {
            let old_is = old.metadata()?;
            if !old_is.is_file() {
                return old.write_all(bytes);
            }
            Some(old_is.permissions())
        }
        Err(error) if error.kind() == ErrorKind::NotFound => None,
        Err(error) => return Err(error),
    };
    // A link stays one, and the file that it leads to is replaced.
    let path = fs::canonicalize(path).unwrap_or_else(|_| path.to_path_buf());
    let (beside, mut new) = beside(&path)?;
    let written = new
        .write_all(bytes)
        .and_then(|()| permissions.map_or(Ok(()), |as_before| new.set_permissions(as_before)))
        .and_then(|()| new.sync_all())
        .and_then(|()| fs::rename(&beside, &path));
    if written.is_err() {
        let _ = fs::remove_file(&beside);
    }
    written
}

/// A new file in the folder of another.
fn beside(path: &Path) -> io::Result<(PathBuf, File)> {
    let mut tries = 0;
    loop {
        let name = format!(".limudvek-{}-{tries}", process::id());
        let beside = path.with_file_name(name);
        match OpenOptions::new()
            .write(true)
            .create_new(true)
            .open(&beside)
        {
            Ok(file) => return Ok((beside, file)),
            Err(error) if error.kind() == ErrorKind::AlreadyExists => tries += 1,
            Err(error) => return Err(error),
        }
    }
}
