//! What the program `cases` must write for the cases of its input, by the reference.
//!
//!     answers < crates/cases/stdin > crates/cases/stdout
//!
//! With the argument `whole` it shows every element of a buffer however long that is, for scripts that ask
//! for a file or a length.

mod answer;
mod line;

use std::io::{self, BufRead, Write};

fn main() -> io::Result<()> {
    let short = if std::env::args().nth(1).as_deref() == Some("whole") { usize::MAX } else { answer::SHORT };
    let mut out = io::stdout().lock();
    for text in io::stdin().lock().lines() {
        let text = text?;
        let answer = if text.starts_with('#') { text } else { answer::answer(&text, short) };
        writeln!(out, "{answer}")?;
        out.flush()?; // a script that asks waits for the answer
    }
    Ok(())
}
