//! The form of a message: padded address, padded tag string, arguments.

/// The most arguments that a command takes.
pub const MOST_ARGUMENTS: usize = 4;

/// An argument as its tag says: i, f, s, b. A float is its 32 bits.
#[derive(Clone, Copy, Debug, PartialEq, Eq)]
pub enum Argument<'a> {
    Int(i32),
    Float(u32),
    String(&'a [u8]),
    Bytes(&'a [u8]),
}

/// A message of the right form.
#[derive(Clone, Copy, Debug)]
pub struct Message<'a> {
    pub address: &'a [u8],
    /// How many arguments there are.
    count: usize,
    /// The first of them.
    first: [Argument<'a>; MOST_ARGUMENTS],
}

impl<'a> Message<'a> {
    /// The message that these bytes are, none where they are malformed.
    pub fn of(bytes: &'a [u8]) -> Option<Message<'a>> {
        let mut rest = bytes;
        let address = string(&mut rest)?;
        let tags = string(&mut rest)?.strip_prefix(b",")?;
        if !address.starts_with(b"/") {
            return None;
        }
        let mut first = [Argument::Int(0); MOST_ARGUMENTS];
        for (place, tag) in tags.iter().enumerate() {
            let argument = match tag {
                b'i' => Argument::Int(word(&mut rest)? as i32),
                b'f' => Argument::Float(word(&mut rest)?),
                b's' => Argument::String(string(&mut rest)?),
                b'b' => Argument::Bytes(blob(&mut rest)?),
                _ => return None,
            };
            if let Some(kept) = first.get_mut(place) {
                *kept = argument;
            }
        }
        rest.is_empty().then_some(Message {
            address,
            count: tags.len(),
            first,
        })
    }

    /// The arguments, none where they are more than any command takes.
    pub fn arguments(&self) -> Option<&[Argument<'a>]> {
        self.first.get(..self.count)
    }
}

/// Takes so many bytes from the front.
fn take<'a>(count: usize, rest: &mut &'a [u8]) -> Option<&'a [u8]> {
    let (front, back) = rest.split_at_checked(count)?;
    *rest = back;
    Some(front)
}

/// Takes bytes that must be zeros.
fn zeros(count: usize, rest: &mut &[u8]) -> Option<()> {
    let padding = take(count, rest)?;
    padding.iter().all(|&byte| byte == 0).then_some(())
}

/// A string of bytes 1 to 127, then one to four zeros up to a multiple of four.
fn string<'a>(rest: &mut &'a [u8]) -> Option<&'a [u8]> {
    let length = rest.iter().position(|&byte| byte == 0)?;
    let text = take(length, rest)?;
    zeros(4 - length % 4, rest)?;
    text.is_ascii().then_some(text)
}

/// Four bytes, the highest first.
fn word(rest: &mut &[u8]) -> Option<u32> {
    let (front, back) = rest.split_first_chunk()?;
    *rest = back;
    Some(u32::from_be_bytes(*front))
}

/// A length from 0 on, so many bytes, then no to three zeros up to a multiple of four.
fn blob<'a>(rest: &mut &'a [u8]) -> Option<&'a [u8]> {
    let length = usize::try_from(word(rest)? as i32).ok()?;
    let bytes = take(length, rest)?;
    zeros(length.next_multiple_of(4) - length, rest)?;
    Some(bytes)
}
