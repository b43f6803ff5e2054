//! OSC messages as text. What is shown need not be of the right form to the last byte: that the engine
//! says.

use std::fmt;
use synthdef::show::{counted, quoted};

#[derive(Clone, Debug, PartialEq)]
pub enum Argument {
    Int(i32),
    Float(f32),
    String(Vec<u8>),
    /// Bytes, by how many they are.
    Bytes(usize),
}

#[derive(Clone, Debug, PartialEq)]
pub struct Message {
    pub address: Vec<u8>,
    pub arguments: Vec<Argument>,
}

impl Message {
    /// The message that these bytes are, if they are one.
    pub fn read(bytes: &[u8]) -> Option<Message> {
        let (address, rest) = string(bytes)?;
        let (tags, mut rest) = string(rest)?;
        let mut arguments = Vec::new();
        for tag in tags.strip_prefix(b",")? {
            let argument;
            (argument, rest) = match tag {
                b's' => {
                    let (text, rest) = string(rest)?;
                    (Argument::String(text.to_vec()), rest)
                }
                b'i' => {
                    let (bytes, rest) = rest.split_first_chunk()?;
                    (Argument::Int(i32::from_be_bytes(*bytes)), rest)
                }
                b'f' => {
                    let (bytes, rest) = rest.split_first_chunk()?;
                    (Argument::Float(f32::from_be_bytes(*bytes)), rest)
                }
                b'b' => {
                    let (length, rest) = rest.split_first_chunk()?;
                    let length = u32::from_be_bytes(*length) as usize;
                    let rest = rest.get(length.next_multiple_of(4)..)?;
                    (Argument::Bytes(length), rest)
                }
                _ => return None,
            };
            arguments.push(argument);
        }
        rest.is_empty().then(|| Message {
            address: address.to_vec(),
            arguments,
        })
    }
}

/// A padded string, and what comes after it.
fn string(bytes: &[u8]) -> Option<(&[u8], &[u8])> {
    let length = bytes.iter().position(|&byte| byte == 0)?;
    let rest = bytes.get(4 * (length / 4 + 1)..)?;
    Some((&bytes[..length], rest))
}

impl fmt::Display for Argument {
    fn fmt(&self, f: &mut fmt::Formatter) -> fmt::Result {
        match self {
            Argument::Int(number) => write!(f, "{number}"),
            Argument::Float(number) => write!(f, "{number:?}"),
            Argument::String(text) => f.write_str(&quoted(text)),
            Argument::Bytes(count) => write!(f, "({})", counted(*count, "byte")),
        }
    }
}

impl fmt::Display for Message {
    fn fmt(&self, f: &mut fmt::Formatter) -> fmt::Result {
        f.write_str(&quoted(&self.address))?;
        for argument in &self.arguments {
            write!(f, " {argument}")?;
        }
        Ok(())
    }
}
