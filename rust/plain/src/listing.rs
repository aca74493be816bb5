//! The listing and the refusal line (01, "Figures"; 02, U1).

use crate::codes::CODES;
use crate::{Answer, Refusal};

const HEADING: &[u8] = b"code t/year g/s\n";

/// Digits of the largest 64-bit number, and a point.
const LONGEST_FIGURE: usize = 21;

/// Bytes that any listing has room in.
pub const LONGEST: usize = HEADING.len()
    + CODES.len() * ("0152 ".len() + LONGEST_FIGURE + 1 + LONGEST_FIGURE + 1)
    + "sources 65535 65535 65535\n".len();

/// A text of at most `LONGEST` bytes.
pub struct Text {
    bytes: [u8; LONGEST],
    length: usize,
}

impl Text {
    fn new() -> Text {
        Text {
            bytes: [0; LONGEST],
            length: 0,
        }
    }

    pub fn bytes(&self) -> &[u8] {
        &self.bytes[..self.length]
    }

    fn push(&mut self, text: &[u8]) {
        self.bytes[self.length..self.length + text.len()].copy_from_slice(text);
        self.length += text.len();
    }

    /// A number with `decimals` digits behind the point, or whole for none: "decimal with no
    /// leading zeros, except one zero before the point".
    fn push_number(&mut self, number: u64, decimals: usize) {
        let mut digits = [0; LONGEST_FIGURE];
        let mut start = digits.len();
        let mut rest = number;
        let mut written = 0;
        while rest > 0 || written <= decimals {
            if written > 0 && written == decimals {
                start -= 1;
                digits[start] = b'.';
            }
            start -= 1;
            digits[start] = b'0' + (rest % 10) as u8;
            rest /= 10;
            written += 1;
        }
        self.push(&digits[start..]);
    }

    /// A word and whole numbers, "parted by spaces".
    fn push_line(&mut self, word: &[u8], numbers: &[u16]) {
        self.push(word);
        for &number in numbers {
            self.push(b" ");
            self.push_number(u64::from(number), 0);
        }
        self.push(b"\n");
    }
}

/// "heading; code, tonnes, grams per second; then groups and store records", and by 02 "the sources
/// line gains a third count, the length of the locomotive chain".
pub fn listing(answer: &Answer) -> Text {
    let mut text = Text::new();
    text.push(HEADING);
    for (place, code) in CODES.iter().enumerate() {
        text.push(code.as_bytes());
        text.push(b" ");
        text.push_number(answer.annual[place], 6);
        text.push(b" ");
        text.push_number(answer.peak[place], 7);
        text.push(b"\n");
    }
    let counts = [answer.groups, answer.stores, answer.locomotives];
    text.push_line(b"sources", &counts);
    text
}

/// "`refused`, number and slot, parted by spaces"
pub fn refusal_line(refusal: Refusal) -> Text {
    let mut text = Text::new();
    text.push_line(b"refused", &[u16::from(refusal.number), refusal.slot]);
    text
}
