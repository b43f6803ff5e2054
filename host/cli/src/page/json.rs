//! JSON as text, such as can stand in an element of HTML.

use std::fmt::{self, Display, Write};

/// An object as it grows. Values are JSON already.
#[derive(Default)]
pub struct Object(Vec<String>);

impl Object {
    pub fn set(&mut self, key: &str, value: impl Display) {
        self.0.push(format!("\"{key}\":{value}"));
    }
}

impl Display for Object {
    fn fmt(&self, f: &mut fmt::Formatter) -> fmt::Result {
        write!(f, "{{{}}}", self.0.join(","))
    }
}

pub fn list(items: impl IntoIterator<Item = impl Display>) -> String {
    let items: Vec<String> = items.into_iter().map(|item| item.to_string()).collect();
    format!("[{}]", items.join(","))
}

pub fn or_null(value: Option<impl Display>) -> String {
    value.map_or_else(|| "null".to_string(), |value| value.to_string())
}

/// Letters that HTML or JSON reads as something else are escaped, and all beyond ASCII.
pub fn string(text: &str) -> String {
    let mut string = String::from("\"");
    for letter in text.chars() {
        match letter {
            '"' | '\\' | '<' | '>' | '&' | '\'' => escape(letter, &mut string),
            ' '..='~' => string.push(letter),
            _ => escape(letter, &mut string),
        }
    }
    string.push('"');
    string
}

fn escape(letter: char, string: &mut String) {
    for unit in letter.encode_utf16(&mut [0; 2]) {
        write!(string, "\\u{unit:04x}").expect("a string takes all");
    }
}

/// Places as runs: first, how many, first, how many.
pub fn runs(places: impl Iterator<Item = usize>) -> String {
    let mut runs: Vec<usize> = Vec::new();
    for place in places {
        match runs.as_mut_slice() {
            [.., first, count] if *first + *count == place => *count += 1,
            _ => runs.extend([place, 1]),
        }
    }
    list(runs)
}

/// A float's pattern as text, as `play` prints floats. Of a NaN the pattern is shown too.
pub fn float(pattern: u32) -> String {
    let float = f32::from_bits(pattern);
    if float.is_nan() {
        format!("\"NaN {pattern:08x}\"")
    } else {
        format!("\"{float:?}\"")
    }
}
