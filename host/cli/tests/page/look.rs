//! Pages as they are made, and what stands in them.

use super::html::{self, Piece};
use super::json::Json;
use cli::page::{page, Page};
use std::path::Path;

/// The page of a script on the proved engine.
pub fn made(script: &[u8], folder: &Path) -> Page {
    let page = page(script, "the <show>", folder, &mut engine::Engine::new());
    page.expect("the engine answers")
}

/// The pieces of a page, which is well formed and asks for nothing from outside.
pub fn pieces(page: &str) -> Vec<Piece> {
    let pieces = html::read(page).unwrap_or_else(|why| panic!("{why}"));
    for piece in &pieces {
        if let Piece::Open(name, attributes) = piece {
            let known = [
                "html", "head", "meta", "title", "style", "body", "header", "h1", "h2",
            ];
            let more = [
                "nav", "button", "input", "span", "main", "div", "section", "p", "code",
            ];
            let rest = ["pre", "ul", "ol", "li", "samp", "script"];
            let mut all = known.iter().chain(&more).chain(&rest);
            assert!(all.any(|known| known == name), "<{name}>");
            for (key, value) in attributes {
                let outside = ["src", "href", "style", "srcset", "data", "action"];
                let bad = outside.contains(&key.as_str()) || key.starts_with("on");
                assert!(!bad, "<{name}> has {key}={value}");
            }
        }
    }
    pieces
}

/// The data in a page.
pub fn data(pieces: &[Piece]) -> Json {
    let at = pieces
        .iter()
        .position(|piece| piece.opens("script", "id", "data"));
    match &pieces[at.expect("the data") + 1] {
        Piece::Text(text) => Json::read(text),
        piece => panic!("{piece:?} is no text"),
    }
}

/// A line of the list.
#[derive(Debug, Default)]
pub struct Line {
    pub number: usize,
    pub class: String,
    pub text: String,
    pub answer: String,
}

pub fn lines(pieces: &[Piece]) -> Vec<Line> {
    let mut lines: Vec<Line> = Vec::new();
    let mut answer = false;
    let start = pieces
        .iter()
        .position(|piece| piece.opens("ol", "id", "lines"));
    for piece in &pieces[start.expect("the list")..] {
        match (piece, lines.last_mut()) {
            (Piece::Open(name, _), _) if name == "li" => {
                let value = |key| piece.attribute(key).expect(key).to_string();
                lines.push(Line {
                    number: value("value").parse().expect("a number"),
                    class: value("class"),
                    ..Line::default()
                });
            }
            (Piece::Open(name, _), _) if name == "samp" => answer = true,
            (Piece::Close(name), _) if name == "samp" => answer = false,
            (Piece::Close(name), _) if name == "ol" => return lines,
            (Piece::Text(text), Some(line)) if answer => line.answer.push_str(text),
            (Piece::Text(text), Some(line)) => line.text.push_str(text.trim_end_matches('\n')),
            _ => {}
        }
    }
    panic!("the list does not end");
}
