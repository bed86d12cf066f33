//! The rule file: a narrowed DIMACS CNF, with document 02's comment lines between the rules (L1) and repeated and
//! opposite entries in them (L3).

use crate::lent::{refuse, Refusal, MAX_ENTRIES, MAX_N, MAX_RULES};

#[derive(Debug, PartialEq, Eq)]
pub struct Book {
    pub n: u64,
    pub rules: u64,
    pub list: Vec<i32>,
}

/// One to five decimal digits, no leading zero but 0 itself.
fn number(text: &[u8]) -> Option<u64> {
    let digits = matches!(text.len(), 1..=5) && text.iter().all(u8::is_ascii_digit);
    if !digits || (text[0] == b'0' && text.len() > 1) {
        return None;
    }
    Some(text.iter().fold(0, |value, &b| value * 10 + (b - b'0') as u64))
}

/// A number, or a minus and a number other than 0.
fn token(text: &[u8]) -> Option<i32> {
    match text.strip_prefix(b"-") {
        None => number(text).map(|v| v as i32),
        Some(rest) => number(rest).filter(|&v| v != 0).map(|v| -(v as i32)),
    }
}

/// The bytes from `at` up to the line feed there, and whether there is one.
fn line(file: &[u8], at: usize) -> (&[u8], bool) {
    match file[at..].iter().position(|&b| b == b'\n') {
        Some(length) => (&file[at..at + length], true),
        None => (&file[at..], false),
    }
}

fn header(text: &[u8]) -> Option<(u64, u64)> {
    let mut numbers = text.strip_prefix(b"p cnf ")?.split(|&b| b == b' ');
    let (n, c) = (number(numbers.next()?)?, number(numbers.next()?)?);
    numbers.next().is_none().then_some((n, c))
}

fn blank(b: u8) -> bool {
    matches!(b, 9 | 10 | 13 | 32)
}

/// The file with each comment line from a line's beginning on made blank, so that all else stays in its place.
fn without_comments(file: &[u8], mut at: usize) -> Vec<u8> {
    let mut blanked = file.to_vec();
    while at < file.len() {
        let (text, ended) = line(file, at);
        if text.starts_with(b"c") {
            blanked[at..at + text.len()].fill(b' ');
        }
        at += text.len() + ended as usize;
    }
    blanked
}

/// N, C and where the header's line ends, past the comments before it.
fn read_header(file: &[u8]) -> Result<(u64, u64, usize), Refusal> {
    let mut at = 0;
    while file.get(at) == Some(&b'c') {
        let (text, ended) = line(file, at);
        at += text.len() + ended as usize;
    }
    let (text, ended) = line(file, at);
    let (n, c) = match header(text) {
        Some(pair) if ended => pair,
        _ => return refuse(1, at),
    };
    if !(1..=MAX_N).contains(&n) || c > MAX_RULES as u64 {
        return refuse(2, at);
    }
    Ok((n, c, at + text.len() + 1))
}

pub fn read(file: &[u8]) -> Result<Book, Refusal> {
    let (n, c, mut at) = read_header(file)?;
    let file = &without_comments(file, at)[..];

    let mut list: Vec<i32> = Vec::new();
    let mut open: Vec<i32> = Vec::new(); // the entries of the rule that is not closed yet
    let (mut closed, mut entries) = (0, 0);
    loop {
        while at < file.len() && blank(file[at]) {
            at += 1;
        }
        if at == file.len() {
            break;
        }
        let length = file[at..].iter().position(|&b| blank(b)).unwrap_or(file.len() - at);
        let Some(entry) = token(&file[at..at + length]) else { return refuse(3, at) };
        if closed == c {
            return refuse(6, at);
        }
        if entry == 0 {
            list.append(&mut open);
            list.push(0);
            closed += 1;
        } else if !open.contains(&entry) {
            // L3: "An equal entry is stored once, at its first place. .. Entry counts are taken after dropping
            // repeats."
            if entries == MAX_ENTRIES {
                return refuse(7, at);
            }
            if entry.unsigned_abs() as u64 > n {
                return refuse(4, at);
            }
            open.push(entry);
            entries += 1;
        }
        at += length;
    }
    if closed < c || !open.is_empty() {
        return refuse(6, file.len());
    }
    Ok(Book { n, rules: c, list })
}

pub fn write(n: u64, list: &[i32]) -> Vec<u8> {
    let rules = list.iter().filter(|&&e| e == 0).count();
    let mut text = format!("p cnf {n} {rules}\n");
    for entry in list {
        text += &format!("{entry}{}", if *entry == 0 { '\n' } else { ' ' });
    }
    text.into_bytes()
}
