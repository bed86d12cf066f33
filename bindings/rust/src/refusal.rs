use crate::raw::Answer;
use std::fmt;

/// Why a call refused what it was lent, by the table in `include/powhanire.h`. Every lent slice is then as it was.
///
/// The place is a byte of the file for 1 to 10, an element of the rules, the row or the choice for 13 and 16, the
/// length that is needed for 15, and 0 for the others.
///
/// ```
/// use powhanire::{read_rules, room, Refusal};
///
/// let file = b"p cnf 2 1\n1 3 0\n"; // setting 3 of 2
/// let refusal = read_rules(file, &mut vec![0; room::RULES]).unwrap_err();
/// assert_eq!(refusal, Refusal { number: 4, place: 12 });
/// assert_eq!(refusal.to_string(), "the entry's setting is above N (refusal 4, place 12)");
/// assert_eq!(refusal.position(file), (2, 3));
/// ```
#[derive(Clone, Copy, Debug, PartialEq, Eq, Hash)]
pub struct Refusal {
    /// from 1 to 16; never 5
    pub number: u64,
    /// counted from 0
    pub place: u64,
}

impl Refusal {
    /// What is wrong, without the place.
    ///
    /// ```
    /// let refusal = powhanire::check(2, &[1, 2, 0], &[0, 0], &[1]).unwrap_err();
    /// assert_eq!(refusal.what(), "the wish row or the choice is for more or fewer settings than the rules");
    /// ```
    pub fn what(self) -> &'static str {
        match self.number {
            1 => "the header `p cnf N C` is missing or malformed",
            2 => "the header's N or C is out of range",
            3 => "this is neither an entry (V or -V, without leading zeros) nor the 0 that closes a rule",
            4 => "the entry's setting is above N",
            6 => "there are more rules than the header's C, or fewer, or the last is not closed",
            7 => "there are more than 31000 entries",
            8 => "the line is cut, out of column or malformed, or comes after the last wish",
            9 => "the first line's number of settings, number of wishes or limit is out of range",
            10 => "the wish's setting is out of range or not rising, or its value is neither 0 nor 1",
            11 => "the wish row or the choice is for more or fewer settings than the rules",
            12 => "with wishes there are at most 256 settings, 4096 rules and 16384 entries",
            13 => "the rule list, the wish row or the choice has an element that is not allowed, or a rule is left open",
            14 => "n is not from 1 to 640, or d is above 64",
            15 => "the output buffer is too short; the place is the length that it needs",
            16 => "a rule has no entries, which OPB has no line for",
            _ => "the refusal has a number that this version does not know",
        }
    }

    /// The line and the column of the place in the file that was refused, both counted from 1, columns in bytes.
    /// It is for the refusals of a file, 1 to 10: the place of the others is no byte of one.
    ///
    /// ```
    /// use powhanire::{read_wishes, room};
    ///
    /// let file = b"    2    1    0\n    1    2\n"; // neither on nor off
    /// let refusal = read_wishes(file, &mut [0; room::ROW]).unwrap_err();
    /// assert_eq!((refusal.number, refusal.position(file)), (10, (2, 1)));
    /// ```
    pub fn position(self, file: &[u8]) -> (usize, usize) {
        let before = &file[..file.len().min(self.place as usize)];
        let line = before.iter().rposition(|&byte| byte == b'\n').map_or(0, |feed| feed + 1);
        (1 + before.iter().filter(|&&byte| byte == b'\n').count(), 1 + before.len() - line)
    }
}

impl fmt::Display for Refusal {
    fn fmt(&self, f: &mut fmt::Formatter) -> fmt::Result {
        write!(f, "{} (refusal {}, place {})", self.what(), self.number, self.place)
    }
}

impl std::error::Error for Refusal {}

/// An answer that is no refusal.
pub(crate) fn accepted(answer: Answer) -> Result<Answer, Refusal> {
    match answer.refusal {
        0 => Ok(answer),
        number => Err(Refusal { number, place: answer.place }),
    }
}
