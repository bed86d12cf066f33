//! A case: the name of a call, then its values, single spaces between them. A list is its length and its
//! elements; among these `@ COUNT BACK` stands for COUNT further elements, each of them the one that stands
//! BACK places before it. None is what the program answers with `bad case`.

use calls::{Buffer, Kind, Values, Writes};
use std::str::Split;

/// The longest lists that the program takes: of numbers; a rule file, or bytes that are written; any other bytes.
const NUMBERS: usize = 40_960;
const FILE: usize = 262_144;
const BYTES: usize = 1_024;

/// A value of a case.
type Value = calls::Value<Vec<i32>, Vec<u8>>;

/// The words that are not read yet.
pub struct Words<'a>(Split<'a, char>);

/// The name with which a line begins, and the words after it.
pub fn start(line: &str) -> (&str, Words<'_>) {
    let mut words = line.split(' ');
    (words.next().unwrap_or(""), Words(words))
}

impl Words<'_> {
    pub fn value(&mut self, kind: Kind) -> Option<Value> {
        Some(match Values::default().value(kind) {
            Value::Number(_) => Value::Number(self.number()?),
            Value::Numbers(_) => Value::Numbers(self.list(NUMBERS)?),
            Value::Bytes(_) if kind == Kind::rule_file => Value::Bytes(self.narrow(FILE)?),
            Value::Bytes(_) => Value::Bytes(self.narrow(BYTES)?),
        })
    }

    pub fn buffer(&mut self, writes: Writes) -> Option<Buffer> {
        Some(match writes {
            Writes::List => Buffer { numbers: self.list(NUMBERS)?, ..Buffer::default() },
            _ => Buffer { bytes: self.narrow(FILE)?, ..Buffer::default() },
        })
    }

    /// Nothing may be left.
    pub fn end(mut self) -> Option<()> {
        self.0.next().is_none().then_some(())
    }

    fn number(&mut self) -> Option<u64> {
        digits(self.0.next()?)
    }

    fn narrow(&mut self, most: usize) -> Option<Vec<u8>> {
        self.list(most)?.into_iter().map(|x| u8::try_from(x).ok()).collect()
    }

    fn list(&mut self, most: usize) -> Option<Vec<i32>> {
        let length = self.number()?;
        if length > most as u64 {
            return None;
        }
        let length = length as usize;
        let mut list: Vec<i32> = Vec::new();
        while list.len() < length {
            match self.0.next()? {
                "@" => {
                    let (count, back) = (self.number()?, self.number()?);
                    if count > (length - list.len()) as u64 || back == 0 || back > list.len() as u64 {
                        return None;
                    }
                    for _ in 0..count {
                        list.push(list[list.len() - back as usize]);
                    }
                }
                word => list.push(signed(word)?),
            }
        }
        Some(list)
    }
}

/// Decimal digits alone: `parse` would take a plus before them.
fn digits(word: &str) -> Option<u64> {
    if word.bytes().all(|b| b.is_ascii_digit()) {
        word.parse().ok()
    } else {
        None
    }
}

fn signed(word: &str) -> Option<i32> {
    let magnitude = digits(word.strip_prefix('-').unwrap_or(word))? as i128;
    i32::try_from(if word.starts_with('-') { -magnitude } else { magnitude }).ok()
}
