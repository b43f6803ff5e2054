//! The two versions of the format.

/// By document 001, version 1 has an int16 where version 2 has an int32 in nine kinds of fields: the
/// counts of constants, parameters, parameter names and units, a parameter's index, a unit's counts of
/// inputs and outputs, and both indices of an input. They are called numbers here. All else is alike.
#[derive(Clone, Copy, Debug, PartialEq, Eq)]
pub enum Version {
    One,
    Two,
}

impl Version {
    pub const ALL: [Version; 2] = [Version::One, Version::Two];

    /// What stands in the file's version field.
    pub fn field(self) -> i32 {
        match self {
            Version::One => 1,
            Version::Two => 2,
        }
    }

    pub fn of(field: i32) -> Option<Version> {
        Version::ALL
            .into_iter()
            .find(|version| version.field() == field)
    }

    /// The bytes of a number.
    pub const fn width(self) -> usize {
        match self {
            Version::One => 2,
            Version::Two => 4,
        }
    }

    /// The lowest number and the highest.
    pub fn bounds(self) -> (i32, i32) {
        match self {
            Version::One => (i16::MIN.into(), i16::MAX.into()),
            Version::Two => (i32::MIN, i32::MAX),
        }
    }
}
