//! Saved settings in a script: the store that a line lends, and what is done with it. It is a file's, read at first and written back whole at
//! the end, or of this script alone.

use super::line::{Call, Settings};
use super::settings::{self, Named};
use super::{verdict, Applies, Player};
use std::ffi::OsStr;
use std::fs::File;
use std::io::{self, ErrorKind, Read, Write};
use std::os::unix::ffi::OsStrExt;
use std::path::{Path, PathBuf};
use synthdef::{file, show};

/// How many bytes a script's store has.
const BYTES: usize = 65_536;

/// What is asked of a store to see that it is well formed: to drop a version that none has. Of one that is not the answer is 31.
const NO_NAME: &[u8] = b"";
const NO_VERSION: u32 = 0;
const NOT_FORMED: u32 = 31;

/// Said where a line needs a store, and where it lends a second one.
const NONE: &str = "no store is lent yet: store FILE does that";
const LENT: &str = "a store is lent already";

/// A store that is lent.
pub struct Store {
    bytes: Vec<u8>,
    file: Option<Kept>,
}

/// The file that a store is written back to.
struct Kept {
    path: PathBuf,
    /// As it is said, and the line that said it.
    shown: String,
    place: usize,
}

impl Store {
    /// The store of a file, which need not be there yet; or why it is none. The file is left alone.
    fn of<D: Applies>(name: &[u8], place: usize, folder: &Path) -> Result<Store, String> {
        let path = folder.join(OsStr::from_bytes(name));
        let shown = show::path(name);
        let mut bytes = match read(&path) {
            Ok(bytes) => bytes,
            Err(error) if error.kind() == ErrorKind::NotFound => Vec::new(),
            Err(error) => return Err(format!("{shown}: {error}")),
        };
        if bytes.len() > BYTES {
            return Err(format!("{shown}: it has more than {BYTES} bytes"));
        }
        // As it is, before zeros stand behind it: a file that is cut is none.
        if D::drop_version(NO_NAME, NO_VERSION, &mut bytes) == NOT_FORMED {
            let why = synthdef::refusal::reason(NOT_FORMED);
            return Err(format!("{shown}: {why}"));
        }
        bytes.resize(BYTES, 0);
        let file = Some(Kept { path, shown, place });
        Ok(Store { bytes, file })
    }

    /// An empty one that no file keeps.
    fn empty() -> Store {
        Store {
            bytes: vec![0; BYTES],
            file: None,
        }
    }

    pub fn bytes(&self) -> &[u8] {
        &self.bytes
    }
}

/// The bytes of a file, of a longer one than a store can be only so many that this is seen.
fn read(path: &Path) -> io::Result<Vec<u8>> {
    let mut bytes = Vec::new();
    let file = File::open(path)?;
    file.take(BYTES as u64 + 1).read_to_end(&mut bytes)?;
    Ok(bytes)
}

/// A store that could not be written back: the line that lent it, and why.
pub(crate) struct NotKept {
    pub place: usize,
    pub why: String,
}

impl<D: Applies> Player<'_, D> {
    /// Does what a line about saved settings says, and prints it. Answers why it can't be done, if so.
    pub(super) fn settings(
        &mut self,
        text: &str,
        asked: &Settings,
        place: usize,
        folder: &Path,
        out: &mut impl Write,
    ) -> io::Result<Option<String>> {
        let store = match (asked, &mut self.store) {
            (Settings::Lend(name), None) => return self.lend(text, name, place, folder, out),
            (Settings::Lend(_), Some(_)) => return Ok(Some(LENT.to_string())),
            (_, None) => return Ok(Some(NONE.to_string())),
            (_, Some(store)) => store,
        };
        match asked {
            Settings::Lend(_) => {}
            Settings::Save(node) => {
                let before = settings::entries(&store.bytes);
                match self.engine.save(*node, &mut store.bytes) {
                    Ok(version) => {
                        let after = settings::entries(&store.bytes);
                        verdict(text, 0, 0, out)?;
                        writeln!(out, "  {}, version {version}", saved_under(&before, &after))?;
                    }
                    Err(refused) => verdict(text, refused.number, 0, out)?,
                }
            }
            Settings::Drop(name, version) => {
                let number = D::drop_version(name, *version, &mut store.bytes);
                verdict(text, number, 0, out)?;
            }
            Settings::List => {
                verdict(text, 0, 0, out)?;
                settings::print(&store.bytes, out)?;
            }
        }
        Ok(None)
    }

    fn lend(
        &mut self,
        text: &str,
        name: &Option<Vec<u8>>,
        place: usize,
        folder: &Path,
        out: &mut impl Write,
    ) -> io::Result<Option<String>> {
        let store = match name {
            Some(name) => Store::of::<D>(name, place, folder),
            None => Ok(Store::empty()),
        };
        match store {
            Ok(store) => self.store = Some(store),
            Err(why) => return Ok(Some(why)),
        }
        verdict(text, 0, 0, out)?;
        Ok(None)
    }

    /// Recalls settings, and prints the answer. Answers as `settings`.
    pub(super) fn recall(
        &mut self,
        text: &str,
        call: &Call,
        out: &mut impl Write,
    ) -> io::Result<Option<String>> {
        let Some(store) = &self.store else {
            return Ok(Some(NONE.to_string()));
        };
        let [version, node, ..] = call.numbers;
        let recalled = self
            .engine
            .recall(&call.bytes, version, node as i32, &store.bytes);
        let number = recalled.err().map_or(0, |refused| refused.number);
        verdict(text, number, 0, out)?;
        Ok(None)
    }

    /// Writes the store back to its file, if it has one. Answers why that can't be done, if so.
    pub(crate) fn keep(&mut self) -> Option<NotKept> {
        let store = self.store.as_ref()?;
        let Kept { path, shown, place } = store.file.as_ref()?;
        let error = file::replace(path, &store.bytes).err()?;
        Some(NotKept {
            place: *place,
            why: format!("{shown}: {error}; the settings were not kept"),
        })
    }
}

/// The name that a version was saved under: that of the entry which is another, as it is shown.
fn saved_under(before: &[Named], after: &[Named]) -> String {
    let new = after.iter().find(|entry| !before.contains(entry));
    new.map_or_else(String::new, |entry| show::quoted(&entry.name))
}
