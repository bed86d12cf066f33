//! The public calls as one table. The comparison with the reference and the answers to the stored cases go by it, so that
//! a call is written here once.

pub mod lent;
#[macro_use]
mod line;
#[cfg(feature = "library")]
mod said;
mod table;

pub use lent::{Kind, Lent, Value, Values};
pub use reference::Answer;
pub use table::*;

/// A call on what it is lent.
pub type Made = fn(&Lent, Output) -> Answer;

/// A line of the table.
pub struct Call {
    pub name: &'static str,
    /// what it reads, in its order
    pub lent: &'static [Kind],
    /// what it fills of the buffer that is lent last, if one is
    pub writes: Option<Writes>,
    pub says: Says,
    /// the refusals that it can give
    pub refusals: &'static [u64],
    pub reference: Made,
    /// the library's raw call and its safe one; none without the feature `library`
    pub layers: &'static [(&'static str, Made)],
}

/// What a call leaves in the buffer that it is lent.
#[derive(Clone, Copy, Debug, PartialEq, Eq)]
pub enum Writes {
    /// n bytes
    Choice,
    /// as many bytes as there are settings
    Row,
    /// bytes, of which it says how many
    File,
    /// numbers, of which it says how many
    List,
}

/// What a call says that was not refused.
#[derive(Clone, Copy, Debug, PartialEq, Eq)]
pub enum Says {
    /// what it found in a file: three values
    Read,
    /// how long a file is
    Written,
    /// the settings and the length of a list
    Rewritten,
    /// whether a choice meets the rules, and how many wishes it breaks
    Met,
    /// how many wishes a choice within d breaks, or none; the documents leave open which choice it is
    Within,
    /// whether there is a choice; the documents leave open which
    Any,
    /// how many wishes the choice breaks that the documents name, or none
    First,
    /// how many forks a search makes, whether it finds or not
    Forks,
}

impl Says {
    /// The verdicts that it can have, with names for them.
    pub fn verdicts(self) -> &'static [(u64, &'static str)] {
        match self {
            Says::Read | Says::Written | Says::Rewritten => &[(1, "yes")],
            Says::Met | Says::Within | Says::Any | Says::First | Says::Forks => &[(0, "no"), (1, "yes")],
        }
    }
}

/// What is lent to be written: bytes or numbers, of which the other has none.
pub struct Output<'a> {
    pub bytes: &'a mut [u8],
    pub numbers: &'a mut [i32],
}

impl Output<'_> {
    /// Where a part of it that is handed back begins.
    #[cfg(feature = "library")]
    fn starts(&self) -> [*const u8; 2] {
        [self.bytes.as_ptr(), self.numbers.as_ptr() as *const u8]
    }
}

/// The same, held.
#[derive(Clone, Debug, Default, PartialEq, Eq)]
pub struct Buffer {
    pub bytes: Vec<u8>,
    pub numbers: Vec<i32>,
}

impl Buffer {
    pub fn lend(&mut self) -> Output<'_> {
        Output { bytes: &mut self.bytes, numbers: &mut self.numbers }
    }
}
