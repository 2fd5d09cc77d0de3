//! A job's text: typed, padded to a payload, and shown so that it can be typed again.

use crate::figures::Figures;
use crate::hex;
use crate::trouble::{is_printable, Trouble};

/// How many bytes of a payload are the job's number.
const NUMBER: usize = 4;

const ESCAPES: &str = r#"behind a backslash stands ", another backslash, or x and two hex digits"#;

/// The bytes of a typed text. `\"` and `\\` stand for one sign each, `\x41` for any byte.
pub fn typed(word: &str) -> Result<Vec<u8>, Trouble> {
    let mut bytes = Vec::new();
    let mut rest = word.as_bytes();
    while !rest.is_empty() {
        let (byte, len) = match rest {
            [b'\\', sign @ (b'"' | b'\\'), ..] => (*sign, 2),
            [b'\\', b'x', high, low, ..] if high.is_ascii_hexdigit() && low.is_ascii_hexdigit() => {
                (hex::nibble(*high) << 4 | hex::nibble(*low), 4)
            }
            [b'\\', ..] => return Err(Trouble::wrong(word, ESCAPES)),
            _ => (rest[0], 1),
        };
        bytes.push(byte);
        rest = &rest[len..];
    }
    Ok(bytes)
}

/// How many bytes a job's text may have; 0 where there is no room for a job.
pub fn room(figures: &Figures) -> usize {
    figures.payload_len().saturating_sub(NUMBER)
}

/// The payload of a number and a typed text, with zeros behind the text. Where there is no room for any job, it is left to the library to say so.
pub fn payload(figures: &Figures, number: u32, word: &str) -> Result<Vec<u8>, Trouble> {
    let text = typed(word)?;
    let (len, room) = (text.len(), room(figures));
    if len > room && room > 0 {
        let said = format!("the text has {len} bytes, and these figures have room for {room}");
        return Err(Trouble::wrong(word, said));
    }
    let mut payload = number.to_be_bytes().to_vec();
    payload.extend(text);
    payload.resize(figures.payload_len(), 0);
    Ok(payload)
}

/// Number and text of a payload that the library handed out.
pub fn taken_apart(payload: &[u8]) -> (u32, &[u8]) {
    let (number, text) = payload.split_at(NUMBER);
    let number = number
        .iter()
        .fold(0, |value, byte| value << 8 | u32::from(*byte));
    let len = text
        .iter()
        .rposition(|byte| *byte != 0)
        .map_or(0, |last| last + 1);
    (number, &text[..len])
}

/// A text in quotes: letters, digits and ASCII's signs as they are, every other byte as an escape.
pub fn shown(text: &[u8]) -> String {
    let mut line = String::from("\"");
    for chunk in text.utf8_chunks() {
        for c in chunk.valid().chars() {
            match c {
                '"' | '\\' => line.extend(['\\', c]),
                _ if is_printable(c) => line.push(c),
                _ => escape(&mut line, c.encode_utf8(&mut [0; 4]).as_bytes()),
            }
        }
        escape(&mut line, chunk.invalid());
    }
    line.push('"');
    line
}

fn escape(line: &mut String, bytes: &[u8]) {
    line.extend(bytes.iter().map(|byte| format!("\\x{byte:02X}")));
}
