//! What the library's two layers answer, as the reference's answer. A safe call's answer is put back into the numbers
//! that it was made of, so that it is held to the reference as the raw one is.

use powhanire::raw;
use powhanire::{Checked, Refusal, Rewritten, RuleBook, Wishes};
use reference::Answer;

pub fn raw(raw::Answer { refusal, place, verdict, value }: raw::Answer) -> Answer {
    Answer { refusal, place, verdict, value }
}

/// A part that is handed back is the first of what was lent, and so begins at one of `starts`.
pub fn safe<T: Said>(result: Result<T, Refusal>, starts: [*const u8; 2]) -> Answer {
    match result {
        Ok(said) => {
            let begun = said.part().map_or(true, |part| starts.contains(&part));
            assert!(begun, "the part handed back does not begin where the lent slice does");
            let (verdict, value) = said.numbers();
            Answer { verdict, value, ..Answer::default() }
        }
        Err(Refusal { number, place }) => Answer { refusal: number, place, ..Answer::default() },
    }
}

/// What a safe call gives.
pub trait Said {
    /// the verdict and the values
    fn numbers(&self) -> (u64, [u64; 3]);

    /// where the part begins that it hands back of what was lent
    fn part(&self) -> Option<*const u8> {
        None
    }
}

impl Said for RuleBook<'_> {
    fn numbers(&self) -> (u64, [u64; 3]) {
        (1, [self.settings, self.rules, self.list.len() as u64])
    }
    fn part(&self) -> Option<*const u8> {
        Some(self.list.as_ptr() as *const u8)
    }
}

impl Said for Wishes<'_> {
    fn numbers(&self) -> (u64, [u64; 3]) {
        (1, [self.row.len() as u64, self.wishes, self.limit])
    }
    fn part(&self) -> Option<*const u8> {
        Some(self.row.as_ptr())
    }
}

impl Said for Rewritten<'_> {
    fn numbers(&self) -> (u64, [u64; 3]) {
        (1, [self.settings, self.list.len() as u64, 0])
    }
    fn part(&self) -> Option<*const u8> {
        Some(self.list.as_ptr() as *const u8)
    }
}

/// A file that was written.
impl Said for &[u8] {
    fn numbers(&self) -> (u64, [u64; 3]) {
        (1, [self.len() as u64, 0, 0])
    }
    fn part(&self) -> Option<*const u8> {
        Some(self.as_ptr())
    }
}

impl Said for Checked {
    fn numbers(&self) -> (u64, [u64; 3]) {
        (self.met as u64, [self.broken, 0, 0])
    }
}

/// The wishes that a choice breaks which was found.
impl Said for Option<u64> {
    fn numbers(&self) -> (u64, [u64; 3]) {
        (self.is_some() as u64, [self.unwrap_or(0), 0, 0])
    }
}

/// Whether a choice was found.
impl Said for bool {
    fn numbers(&self) -> (u64, [u64; 3]) {
        (*self as u64, [0; 3])
    }
}
