//! A reader of HTML that takes well-formed pages only: every element is closed in turn, attributes
//! stand in quotes, no text holds an unescaped letter, no id comes twice.

use std::collections::HashSet;

/// Elements that have no end.
const VOID: [&str; 2] = ["meta", "input"];
/// Elements whose text is not escaped.
const RAW: [&str; 2] = ["style", "script"];

#[derive(Debug, PartialEq)]
pub enum Piece {
    Open(String, Vec<(String, String)>),
    Text(String),
    Close(String),
}

impl Piece {
    /// Whether an element of this name with this attribute opens.
    pub fn opens(&self, name: &str, key: &str, value: &str) -> bool {
        self.attribute(key) == Some(value) && matches!(self, Piece::Open(own, _) if own == name)
    }

    pub fn attribute(&self, key: &str) -> Option<&str> {
        match self {
            Piece::Open(_, attributes) => {
                let mut attributes = attributes.iter();
                attributes
                    .find(|(name, _)| name == key)
                    .map(|(_, value)| value.as_str())
            }
            _ => None,
        }
    }
}

/// The pieces of a page, or why it is not well formed.
pub fn read(page: &str) -> Result<Vec<Piece>, String> {
    if let Some(letter) = page
        .chars()
        .find(|&letter| letter.is_control() && letter != '\n')
    {
        return Err(format!("the control character {letter:?}"));
    }
    let mut rest = page.strip_prefix("<!DOCTYPE html>").ok_or("no doctype")?;
    let mut pieces = Vec::new();
    let mut open: Vec<String> = Vec::new();
    let mut ids = HashSet::new();
    while !rest.is_empty() {
        let raw = open.last().filter(|name| RAW.contains(&name.as_str()));
        let end = match raw {
            Some(name) => rest
                .find(&format!("</{name}"))
                .ok_or("a raw text does not end")?,
            None => rest.find('<').unwrap_or(rest.len()),
        };
        let (text, after) = rest.split_at(end);
        match raw {
            // A comment in a script's element could hide its end.
            Some(_) if text.contains("<!--") => return Err("a comment in raw text".to_string()),
            Some(_) => pieces.push(Piece::Text(text.to_string())),
            None => pieces.push(Piece::Text(unescaped(text)?)),
        }
        let Some(tag) = after.strip_prefix('<') else {
            break;
        };
        let (tag, after) = tag.split_once('>').ok_or("a tag does not end")?;
        rest = after;
        match tag.strip_prefix('/') {
            Some(name) if open.pop().as_deref() != Some(name) => {
                return Err(format!("</{name}> closes nothing"));
            }
            Some(name) => pieces.push(Piece::Close(name.to_string())),
            None => {
                let (name, attributes) = attributes(tag)?;
                for (key, value) in &attributes {
                    if key == "id" && !ids.insert(value.clone()) {
                        return Err(format!("the id {value} comes twice"));
                    }
                }
                if !VOID.contains(&name.as_str()) {
                    open.push(name.clone());
                }
                pieces.push(Piece::Open(name, attributes));
            }
        }
    }
    match open.last() {
        Some(name) => Err(format!("<{name}> is not closed")),
        None => Ok(pieces),
    }
}

/// An element's name and attributes.
fn attributes(tag: &str) -> Result<(String, Vec<(String, String)>), String> {
    let plain = |text: &str| {
        let fits = |letter: char| letter.is_ascii_lowercase() || "-0123456789".contains(letter);
        !text.is_empty() && text.chars().all(fits)
    };
    let (name, mut rest) = tag.split_once(' ').unwrap_or((tag, ""));
    let mut attributes = Vec::new();
    while !rest.is_empty() {
        let end = rest.find(['=', ' ']).unwrap_or(rest.len());
        let (key, after) = rest.split_at(end);
        let (value, after) = match after.strip_prefix("=\"") {
            Some(value) => value.split_once('"').ok_or("a value does not end")?,
            None => ("", after),
        };
        rest = match after.strip_prefix(' ') {
            Some(rest) => rest,
            None if after.is_empty() => "",
            None => return Err(format!("<{tag}> has {after} after a value")),
        };
        if !plain(key) {
            return Err(format!("<{tag}> has the attribute {key}"));
        }
        attributes.push((key.to_string(), unescaped(value)?));
    }
    match plain(name) {
        true => Ok((name.to_string(), attributes)),
        false => Err(format!("<{tag}> is no tag")),
    }
}

fn unescaped(text: &str) -> Result<String, String> {
    if text.contains(['<', '>']) {
        return Err(format!("{text} is not escaped"));
    }
    let mut parts = text.split('&');
    let mut found = parts.next().unwrap_or("").to_string();
    for part in parts {
        let (name, rest) = part.split_once(';').ok_or(format!("&{part}"))?;
        found.push_str(match name {
            "amp" => "&",
            "lt" => "<",
            "gt" => ">",
            "quot" => "\"",
            "#39" => "'",
            _ => return Err(format!("&{name};")),
        });
        found.push_str(rest);
    }
    Ok(found)
}
