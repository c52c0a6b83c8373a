//! What a call that is refused says.

use std::error::Error;
use std::fmt;

use crate::sizes::{NO_QUESTION, QUESTIONS};

/// A call that was refused: it has changed nothing.
#[derive(Debug, Clone, Copy, PartialEq, Eq)]
pub struct Refused {
    number: u8,
}

impl Refused {
    /// The number of the first question that the call fails, 1 to 16.
    pub fn number(self) -> u8 {
        self.number
    }

    /// What is so of the call, in words.
    pub fn question(self) -> &'static str {
        QUESTIONS.get(usize::from(self.number)).copied().unwrap_or(NO_QUESTION)
    }
}

impl fmt::Display for Refused {
    fn fmt(&self, f: &mut fmt::Formatter<'_>) -> fmt::Result {
        write!(f, "{} (question {})", self.question(), self.number)
    }
}

impl Error for Refused {}

/// The library's answer: 0, or the number of a question.
pub(crate) fn answered(number: u8) -> Result<(), Refused> {
    if number == 0 {
        Ok(())
    } else {
        Err(Refused { number })
    }
}

/// The one word that a call tells.
pub(crate) fn told(call: impl FnOnce(&mut [u64]) -> u8) -> Result<u64, Refused> {
    let mut answer = [0];
    answered(call(&mut answer))?;
    Ok(answer[0])
}

/// The form of a call that panics where it is refused.
#[track_caller]
pub(crate) fn or_panic<T>(answer: Result<T, Refused>) -> T {
    match answer {
        Ok(value) => value,
        Err(refused) => panic!("{refused}"),
    }
}
