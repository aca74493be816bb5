//! Refusals.

/// The first question that is answered no, and the slot that it is about.
///
/// README.md has what each number says and how to mend it. Of a rule, which knows no slots, the
/// slot is 0.
#[derive(Clone, Copy, Debug, PartialEq, Eq)]
pub struct Refusal {
    /// 1 to 14.
    pub number: u8,
    /// 0 where the question is about the whole file.
    pub slot: u16,
}

impl Refusal {
    /// Of numbers that the library gave, where it may refuse by those that are `asked`.
    pub(crate) fn read(number: u64, slot: u64, asked: impl Fn(u64) -> bool) -> Refusal {
        assert!(asked(number), "refused by {number}, which is not asked");
        Refusal {
            number: u8::try_from(number).expect("a question's number is small"),
            slot: u16::try_from(slot).expect("a slot is below 65,536"),
        }
    }
}
