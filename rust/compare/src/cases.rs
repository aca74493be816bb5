//! Cases in the records of crates/file_cases/stdin.

use crate::files::{Lent, Trial};

pub struct Case<'a> {
    file: &'a [u8],
    /// The length of the lent buffer, or 65,535 for one that any listing has room in.
    length: u16,
}

impl<'a> Case<'a> {
    pub fn trial(&self) -> Trial<'a> {
        let length = match self.length {
            65_535 => plain::LONGEST,
            length => usize::from(length),
        };
        Trial {
            file: self.file,
            twin: None,
            sound: false,
            lent: Lent::Bytes(length),
            filling: b'~',
        }
    }
}

/// A record: 4 bytes, the file's length; 2 bytes, the buffer's length; the file. Whatever is left
/// that is no whole record ends them.
pub fn cases(mut rest: &[u8]) -> impl Iterator<Item = Case<'_>> {
    std::iter::from_fn(move || {
        let (head, after) = rest.split_first_chunk::<6>()?;
        let size = u32::from_le_bytes([head[0], head[1], head[2], head[3]]);
        let (file, after) = after.split_at_checked(size as usize)?;
        rest = after;
        Some(Case {
            file,
            length: u16::from_le_bytes([head[4], head[5]]),
        })
    })
}
