//! OSC messages as replies.

use super::refuse;
use crate::Fault;

/// The tags and the arguments of a message.
pub struct Message {
    tags: Vec<u8>,
    arguments: Vec<u8>,
}

impl Message {
    pub fn new() -> Message {
        Message {
            tags: vec![b','],
            arguments: Vec::new(),
        }
    }

    pub fn int(&mut self, number: i32) {
        self.tags.push(b'i');
        self.arguments.extend_from_slice(&number.to_be_bytes());
    }

    /// A float of these bits.
    pub fn float(&mut self, pattern: u32) {
        self.tags.push(b'f');
        self.arguments.extend_from_slice(&pattern.to_be_bytes());
    }

    pub fn string(&mut self, text: &[u8]) {
        self.tags.push(b's');
        pad(text, &mut self.arguments);
    }

    /// Writes the whole message, if there is room. Answers its length.
    pub fn write(self, address: &str, buffer: &mut [u8]) -> Result<usize, Fault> {
        let mut message = Vec::with_capacity(32 + self.tags.len() + self.arguments.len());
        pad(address.as_bytes(), &mut message);
        pad(&self.tags, &mut message);
        message.extend_from_slice(&self.arguments);
        copy(&message, buffer)
    }
}

/// A string and one to four zeros.
fn pad(text: &[u8], bytes: &mut Vec<u8>) {
    bytes.extend_from_slice(text);
    bytes.extend_from_slice(&[0; 4][text.len() % 4..]);
}

/// Copies bytes to the front of a buffer, if there is room. Answers how many.
pub fn copy(bytes: &[u8], buffer: &mut [u8]) -> Result<usize, Fault> {
    match buffer.get_mut(..bytes.len()) {
        Some(front) => {
            front.copy_from_slice(bytes);
            Ok(bytes.len())
        }
        None => refuse(24),
    }
}
