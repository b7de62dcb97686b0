//! A schedule written by hand: each byte as two digits in hex, blanks between them, and `#` for a
//! comment to the end of its line.

use std::fmt;

/// A word that is no byte, and its line, counted from 1.
#[derive(Clone, PartialEq, Eq, Debug)]
pub struct Fault {
    pub line: usize,
    pub word: String,
}

impl fmt::Display for Fault {
    fn fmt(&self, to: &mut fmt::Formatter) -> fmt::Result {
        write!(to, "line {}: not a byte in hex: {}", self.line, self.word)
    }
}

/// The bytes that the text stands for, or the first word that is none. Comments are any bytes.
pub fn bytes(text: &[u8]) -> Result<Vec<u8>, Fault> {
    let mut bytes = Vec::new();
    for (line, number) in text.split(|&byte| byte == b'\n').zip(1..) {
        let end = line.iter().position(|&byte| byte == b'#').unwrap_or(line.len());
        for word in line[..end].split(u8::is_ascii_whitespace).filter(|word| !word.is_empty()) {
            let fault = || Fault { line: number, word: String::from_utf8_lossy(word).into_owned() };
            bytes.push(byte(word).ok_or_else(fault)?);
        }
    }
    Ok(bytes)
}

fn byte(word: &[u8]) -> Option<u8> {
    let &[high, low] = word else { return None };
    Some(16 * digit(high)? + digit(low)?)
}

fn digit(letter: u8) -> Option<u8> {
    char::from(letter).to_digit(16).map(|digit| digit as u8)
}
