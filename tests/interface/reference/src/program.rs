//! Document 01's rewriting program "reads `rules.cnf` and `wish.txt`", here of the current folder. "On a refusal it
//! prints the number, a space, the place and a line feed instead; `rules.cnf` is read first. If either file is longer
//! than 65,536 bytes it prints nothing." The program that exports to OPB does the same.

use crate::lent::Refusal;
use crate::rule_file::{self, Book};
use crate::wish_file::{self, Wishes};
use std::fs;
use std::io::{self, Write};

const LONGEST: usize = 65_536;

/// Prints what is made of the two files.
pub fn run(made: impl Fn(&Book, &Wishes) -> Result<Vec<u8>, Refusal>) -> io::Result<()> {
    let (rules, wishes) = (fs::read("rules.cnf")?, fs::read("wish.txt")?);
    if rules.len() > LONGEST || wishes.len() > LONGEST {
        return Ok(());
    }
    let printed = (|| {
        let (book, wishes) = (rule_file::read(&rules)?, wish_file::read(&wishes)?);
        made(&book, &wishes)
    })();
    io::stdout().write_all(&printed.unwrap_or_else(|r| format!("{} {}\n", r.number, r.place).into_bytes()))
}
