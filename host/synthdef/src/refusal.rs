//! The refusals in plain words.

/// Why a refusal of this number is given.
pub fn reason(number: u32) -> &'static str {
    match number {
        1 => "the state's size is wrong, or it breaks a rule of the engine's state",
        2 => "the file ends before this field does",
        3 => "it does not begin with SCgf, so it is no synth definition file",
        4 => "the version is neither 1 nor 2",
        5 => "this count is out of bounds",
        6 => "this is no name: a definition's is empty, or a byte is not from 1 to 127",
        7 => "this rate is not 0, 1, 2 or 3",
        8 => "this index names nothing that stands before it",
        9 => "this definition takes more than 2,048 bytes in version 2",
        10 => "an earlier definition has this name too",
        11 => "bytes follow the last definition",
        12 => "there are not enough free slots for these definitions",
        13 => "the add action is not 0 to 4, or the run flag is not 0 or 1",
        14 => "a new node's number is from 1 up, or -1 for a synth",
        15 => "a live node has this number",
        16 => "no resident definition has this name",
        17 => "there is no such node",
        18 => "a group or a synth is needed and this is none, or the root stands where it can't",
        19 => "the place is the moved node itself or lies below it",
        20 => "256 nodes live already",
        21 => "there is no such control",
        22 => "there is no such bus or range of buses",
        23 => "an integer value is from -16,777,216 to 16,777,216",
        24 => "what would be written is longer than its buffer",
        25 => "no generated number is left",
        26 => "this is no OSC message: it is cut or malformed, or bytes are left over",
        27 => "no command has this address, or not with these arguments",
        28 => "the name covers fewer controls than that",
        30 => "16 versions are saved under this name already",
        31 => "this is no well-formed store of settings",
        32 => "no such version is saved under this name",
        33 => "the store has no room for this, or the name has had its last version",
        34 => "a list has at most 512 commands, and none of them replies or recalls",
        _ => "the reason has no words yet",
    }
}

/// Why a command can't be written as a message.
pub fn unwritten(number: u32) -> &'static str {
    match number {
        26 => "a name has a byte that is not from 1 to 127, or the file is longer than 2,147,483,647 bytes",
        27 => "it has no address",
        _ => reason(number),
    }
}
