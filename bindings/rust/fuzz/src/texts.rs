//! Random texts.

/// A source of random texts: xorshift64*.
pub struct Source {
    state: u64,
}

const SPACES: &[&str] = &["", "", "", "", "", " ", "\n", "\t", "\r\n", "  "];

const NUMBERS: &[&str] = &[
    "0",
    "-0",
    "1",
    "-1",
    "10",
    "0.0",
    "-0.0",
    "1.50",
    "1e2",
    "1E2",
    "1e+2",
    "1E-2",
    "0e0",
    "9223372036854775807",
    "9223372036854775808",
    "-9223372036854775808",
    "-9223372036854775809",
    "18446744073709551615",
    "18446744073709551616",
    "1e400",
    "-1e400",
    "4.9e-324",
    "2.4e-324",
    "1.7976931348623157e308",
    "1.7976931348623159e308",
    "0.1",
    "123456789012345678901234567890",
];

const PARTS: &[&str] = &[
    "a",
    "b",
    "é",
    "€",
    "😄",
    "\u{7f}",
    "\u{80}",
    "\u{2028}",
    "\u{ffff}",
    "\\n",
    "\\\"",
    "\\\\",
    "\\/",
    "\\b",
    "\\f",
    "\\r",
    "\\t",
    "\\u0041",
    "\\u0000",
    "\\u001f",
    "\\u00E9",
    "\\u20ac",
    "\\ud83d\\ude04",
    "\\uD83D\\uDE04",
    "\\uffff",
    "0",
    "~",
    "/",
    " ",
    "'",
];

const NAMES: &[&str] = &["", "a", "b", "c", "d", "é", "0", "1", "a/b", "m~n", "\\u0061", "\\n"];

const DAMAGE: &[u8] =
    b"[]{},:\"\\/+-.0123456789eEtfnulax \n\t\x00\x1f\x7f\x80\xbf\xc3\xe2\xed\xf0\xff";

impl Source {
    pub fn new(seed: u64) -> Source {
        Source { state: seed.wrapping_mul(0x9e37_79b9_7f4a_7c15) | 1 }
    }

    fn next(&mut self) -> u64 {
        self.state ^= self.state >> 12;
        self.state ^= self.state << 25;
        self.state ^= self.state >> 27;
        self.state.wrapping_mul(0x2545_f491_4f6c_dd1d) >> 16
    }

    /// Returns a number below a bound.
    pub fn below(&mut self, bound: usize) -> usize {
        (self.next() % bound as u64) as usize
    }

    fn one<T: Copy>(&mut self, of: &[T]) -> T {
        of[self.below(of.len())]
    }

    /// Returns a text; a third of them are damaged, and one in a hundred is deep.
    pub fn text(&mut self) -> Vec<u8> {
        let mut text = String::new();
        if self.below(100) == 0 {
            self.deep(&mut text);
        } else {
            let levels = self.below(6);
            self.value(levels, &mut text);
        }
        let mut bytes = text.into_bytes();
        if self.below(3) == 0 {
            for _ in 0..=self.below(2) {
                self.damage(&mut bytes);
            }
        }
        bytes
    }

    /// Appends arrays and objects within each other, about as many as are allowed.
    fn deep(&mut self, text: &mut String) {
        let levels = 110 + self.below(30);
        let mut ends = String::new();
        for _ in 0..levels {
            let (begin, end) = self.one(&[("[", ']'), ("{\"a\":", '}'), ("[1,", ']')]);
            text.push_str(begin);
            ends.insert(0, end);
        }
        self.value(0, text);
        text.push_str(&ends);
    }

    fn space(&mut self, text: &mut String) {
        text.push_str(self.one(SPACES));
    }

    fn value(&mut self, levels: usize, text: &mut String) {
        self.space(text);
        match self.below(if levels == 0 { 5 } else { 12 }) {
            0 => text.push_str(self.one(&["null", "true", "false"])),
            1 => text.push_str(self.one(NUMBERS)),
            2 => self.number(text),
            3 | 4 => self.string(text),
            5..=8 => self.list(levels - 1, false, text),
            _ => self.list(levels - 1, true, text),
        }
        self.space(text);
    }

    /// Appends an array, or an object.
    fn list(&mut self, levels: usize, named: bool, text: &mut String) {
        text.push(if named { '{' } else { '[' });
        self.space(text);
        for index in 0..self.below(5) {
            if index > 0 {
                text.push(',');
            }
            if named {
                self.space(text);
                text.push('"');
                text.push_str(self.one(NAMES));
                if self.below(2) == 0 {
                    text.push_str(&index.to_string());
                }
                text.push('"');
                self.space(text);
                text.push(':');
            }
            self.value(levels, text);
        }
        text.push(if named { '}' } else { ']' });
    }

    fn digits(&mut self, text: &mut String) {
        for _ in 0..=self.below(22) {
            text.push(self.one(b"0123456789") as char);
        }
    }

    fn number(&mut self, text: &mut String) {
        text.push_str(self.one(&["", "", "-"]));
        text.push(self.one(b"123456789") as char);
        self.digits(text);
        if self.below(3) == 0 {
            text.push('.');
            self.digits(text);
        }
        if self.below(3) == 0 {
            text.push_str(self.one(&["e", "E", "e+", "E-", "e-"]));
            text.push_str(&self.below(400).to_string());
        }
    }

    fn string(&mut self, text: &mut String) {
        text.push('"');
        for _ in 0..self.below(8) {
            text.push_str(self.one(PARTS));
        }
        text.push('"');
    }

    /// Replaces, removes or inserts a byte, or cuts the text.
    fn damage(&mut self, bytes: &mut Vec<u8>) {
        let at = self.below(bytes.len() + 1);
        match self.below(4) {
            0 if at < bytes.len() => bytes[at] = self.one(DAMAGE),
            1 if at < bytes.len() => drop(bytes.remove(at)),
            2 => bytes.truncate(at),
            _ => bytes.insert(at, self.one(DAMAGE)),
        }
    }
}
