//! Safe functions over the proved library of SynthDef files: a file of version 1 or 2 is accepted, or refused
//! with a number and a place. Beside them the refusals in plain words, and bytes as text.

pub mod file;
pub mod refusal;
pub mod show;

use crate::refusal::reason;
use std::fmt;

/// The exported functions of the Rattle crate `synthdef`. A slice passes as pointer and length.
mod proved {
    extern "C" {
        pub fn synthdef_refusal(file: *const u8, length: usize) -> u32;
        pub fn synthdef_place(file: *const u8, length: usize) -> u64;
        pub fn synthdef_version(file: *const u8, length: usize) -> u32;
        pub fn synthdef_count(file: *const u8, length: usize) -> u32;
        pub fn synthdef_name_start(file: *const u8, length: usize, index: u32) -> u64;
        pub fn synthdef_name_end(file: *const u8, length: usize, index: u32) -> u64;
        pub fn synthdef_widen(
            file: *const u8,
            length: usize,
            out: *mut u8,
            out_length: usize,
        ) -> u64;
    }
}

/// A refusal of a file: the paper's number, and the place of the first byte at fault.
#[derive(Clone, Copy, Debug, PartialEq, Eq)]
pub struct Refused {
    pub number: u32,
    pub place: u64,
}

impl Refused {
    /// The refusal in plain words.
    pub fn reason(&self) -> &'static str {
        reason(self.number)
    }
}

impl fmt::Display for Refused {
    fn fmt(&self, f: &mut fmt::Formatter) -> fmt::Result {
        write!(
            f,
            "refused {} at {}: {}",
            self.number,
            self.place,
            self.reason()
        )
    }
}

/// The refusal's number, or 0 where the file is accepted.
pub fn refusal(file: &[u8]) -> u32 {
    // SAFETY: pointer and length are those of one slice, lent until the call returns.
    unsafe { proved::synthdef_refusal(file.as_ptr(), file.len()) }
}

/// The refusal's place, or 0 where the file is accepted.
pub fn place(file: &[u8]) -> u64 {
    // SAFETY: as above.
    unsafe { proved::synthdef_place(file.as_ptr(), file.len()) }
}

/// Whether the file is accepted, and if not, why.
pub fn check(file: &[u8]) -> Result<(), Refused> {
    match refusal(file) {
        0 => Ok(()),
        number => Err(Refused {
            number,
            place: place(file),
        }),
    }
}

/// The version, 1 or 2; 0 where the file is refused.
pub fn version(file: &[u8]) -> u32 {
    // SAFETY: as above.
    unsafe { proved::synthdef_version(file.as_ptr(), file.len()) }
}

/// The number of definitions, 0 where the file is refused.
pub fn count(file: &[u8]) -> u32 {
    // SAFETY: as above.
    unsafe { proved::synthdef_count(file.as_ptr(), file.len()) }
}

/// The name of a definition, counted from 0, as a part of the file.
pub fn name(file: &[u8], index: u32) -> Option<&[u8]> {
    // SAFETY: as above.
    let (start, end) = unsafe {
        (
            proved::synthdef_name_start(file.as_ptr(), file.len(), index),
            proved::synthdef_name_end(file.as_ptr(), file.len(), index),
        )
    };
    // A file's first bytes are its header, so no name starts at 0.
    match start {
        0 => None,
        _ => file.get(usize::try_from(start).ok()?..usize::try_from(end).ok()?),
    }
}

/// The names of the definitions, in file order.
pub fn names(file: &[u8]) -> impl Iterator<Item = &[u8]> {
    (0..count(file)).filter_map(move |index| name(file, index))
}

/// The most bytes that an accepted file takes in version 2.
pub const LONGEST: usize = 65_546;

/// Writes the version 2 file of the same definitions from the first byte of `out` on, and answers its
/// length. Where the file is refused or `out` is too short, nothing is written and the answer is 0.
pub fn widen(file: &[u8], out: &mut [u8]) -> usize {
    // SAFETY: each pointer and length are those of one slice, lent until the call returns.
    let length =
        unsafe { proved::synthdef_widen(file.as_ptr(), file.len(), out.as_mut_ptr(), out.len()) };
    length as usize
}

/// The version 2 file of the same definitions, or why the file is refused.
pub fn widened(file: &[u8]) -> Result<Vec<u8>, Refused> {
    check(file)?;
    let mut twin = vec![0; LONGEST];
    let length = widen(file, &mut twin);
    twin.truncate(length);
    Ok(twin)
}
