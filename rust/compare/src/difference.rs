//! What the library and the plain calculation say differently.

use std::fmt;
use std::panic::{catch_unwind, AssertUnwindSafe};

/// What was asked, and what each side said.
pub struct Difference {
    pub asked: String,
    pub library: String,
    pub plain: String,
}

impl fmt::Display for Difference {
    fn fmt(&self, f: &mut fmt::Formatter) -> fmt::Result {
        let Difference {
            asked,
            library,
            plain,
        } = self;
        write!(f, "{asked}\nlibrary: {library}\nplain:   {plain}")
    }
}

pub fn equal<T: PartialEq + fmt::Debug>(
    asked: &str,
    library: T,
    plain: T,
) -> Result<(), Difference> {
    if library == plain {
        return Ok(());
    }
    Err(Difference {
        asked: asked.to_string(),
        library: format!("{library:?}"),
        plain: format!("{plain:?}"),
    })
}

/// What is compared by `compared`; a panic is a difference too.
pub fn or_panic(compared: impl FnOnce() -> Result<(), Difference>) -> Result<(), Difference> {
    catch_unwind(AssertUnwindSafe(compared)).unwrap_or_else(|_| {
        Err(Difference {
            asked: "a call ended in a panic".to_string(),
            library: "see above".to_string(),
            plain: "see above".to_string(),
        })
    })
}

/// The library's refusal as one of the plain calculation.
pub fn refusal(refusal: tezhebul::Refusal) -> plain::Refusal {
    plain::Refusal {
        number: refusal.number,
        slot: refusal.slot,
    }
}
