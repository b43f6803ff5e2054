//! Bytes as text that can't steer a terminal.

/// A number of things, as `1 definition` and `2 definitions`.
pub fn counted(count: usize, thing: &str) -> String {
    let more = if count == 1 { "" } else { "s" };
    format!("{count} {thing}{more}")
}

/// How many definitions an accepted file has, and their names.
pub fn definitions(file: &[u8]) -> String {
    let names: Vec<String> = crate::names(file).map(quoted).collect();
    let count = counted(names.len(), "definition");
    match names.as_slice() {
        [] => count,
        _ => format!("{count}: {}", names.join(" ")),
    }
}

/// A name as a script can hold it: in quotes unless it reads as a name without.
pub fn quoted(name: &[u8]) -> String {
    let plain = |byte: &u8| byte.is_ascii_graphic() && !matches!(byte, b'"' | b'#' | b'\\');
    if !name.is_empty() && name.iter().all(plain) && !looks_integer(name) {
        String::from_utf8_lossy(name).into_owned()
    } else {
        in_quotes(name)
    }
}

pub fn in_quotes(name: &[u8]) -> String {
    format!("\"{}\"", self::name(name).replace('"', "\\\""))
}

/// Digits, maybe after a sign.
pub fn looks_integer(word: &[u8]) -> bool {
    let digits = match word.split_first() {
        Some((b'-' | b'+', digits)) => digits,
        _ => word,
    };
    !digits.is_empty() && digits.iter().all(u8::is_ascii_digit)
}

/// A name from a file: bytes below 32, from 127 on, and the backslash are escaped.
fn name(bytes: &[u8]) -> String {
    let mut text = String::new();
    for &byte in bytes {
        escaped(byte, &mut text);
    }
    text
}

/// A path as it was given. Letters beyond ASCII stay; control characters and what is not UTF-8 are
/// escaped byte by byte.
pub fn path(bytes: &[u8]) -> String {
    let mut text = String::new();
    for chunk in bytes.utf8_chunks() {
        for letter in chunk.valid().chars() {
            if letter.is_ascii() || letter.is_control() {
                for byte in letter.to_string().bytes() {
                    escaped(byte, &mut text);
                }
            } else {
                text.push(letter);
            }
        }
        for &byte in chunk.invalid() {
            escaped(byte, &mut text);
        }
    }
    text
}

fn escaped(byte: u8, text: &mut String) {
    match byte {
        b'\\' => text.push_str("\\\\"),
        b' '..=b'~' => text.push(char::from(byte)),
        _ => text.push_str(&format!("\\x{byte:02x}")),
    }
}
