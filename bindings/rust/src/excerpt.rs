//! The line of an input that an error is at, with a caret under its column.

use std::fmt;

/// The greatest number of bytes of a line that are shown.
const WIDTH: usize = 76;

/// The number of bytes before the caret that are shown if the line has them.
const HALF: usize = 38;

/// A line, and how many characters of it are before the caret.
#[derive(Clone, PartialEq, Eq)]
pub(crate) struct Excerpt {
    line: String,
    before: usize,
}

impl Excerpt {
    /// Returns the line at an offset.
    pub(crate) fn of(input: &[u8], offset: usize) -> Excerpt {
        let (head, tail) = input.split_at(offset.min(input.len()));
        let before = head.rsplit(|byte| *byte == b'\n').next().unwrap_or(head);
        let after = tail.split(|byte| *byte == b'\n').next().unwrap_or(tail);
        let after = first_bytes(after, WIDTH - before.len().min(HALF));
        let before = shown(last_bytes(before, WIDTH - after.len()));
        Excerpt { before: before.chars().count(), line: before + &shown(after) }
    }
}

impl fmt::Display for Excerpt {
    fn fmt(&self, f: &mut fmt::Formatter<'_>) -> fmt::Result {
        write!(f, "{}\n{:2$}^", self.line, "", self.before)
    }
}

fn is_continuation(byte: u8) -> bool {
    byte & 0xc0 == 0x80
}

/// Returns at most `max` of the first bytes, up to the end of a character.
fn first_bytes(bytes: &[u8], max: usize) -> &[u8] {
    let mut end = bytes.len().min(max);
    while end < bytes.len() && end > 0 && is_continuation(bytes[end]) {
        end -= 1;
    }
    &bytes[..end]
}

/// Returns at most `max` of the last bytes, from the first byte of a character on.
fn last_bytes(bytes: &[u8], max: usize) -> &[u8] {
    let mut start = bytes.len() - bytes.len().min(max);
    while start > 0 && start < bytes.len() && is_continuation(bytes[start]) {
        start += 1;
    }
    &bytes[start..]
}

/// Returns the bytes as they are shown: a control character is a space.
fn shown(bytes: &[u8]) -> String {
    String::from_utf8_lossy(bytes).replace(|letter: char| letter.is_ascii_control(), " ")
}
