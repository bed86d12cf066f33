//! The wish file: numbers right-justified in columns of 5.

use crate::lent::{refuse, wish_count, Refusal, MAX_WISHES};

#[derive(Debug, PartialEq, Eq)]
pub struct Wishes {
    pub row: Vec<u8>,
    pub d: u64,
}

/// Spaces, then a decimal number without leading zeros, to the column's end.
fn column(text: &[u8]) -> Option<u64> {
    let spaces = text.iter().take_while(|&&b| b == b' ').count();
    let digits = &text[spaces..];
    if digits.is_empty() || !digits.iter().all(u8::is_ascii_digit) || (digits[0] == b'0' && digits.len() > 1) {
        return None;
    }
    std::str::from_utf8(digits).ok()?.parse().ok()
}

/// The K columns of the line at `at`, closed by a line feed.
fn columns<const K: usize>(file: &[u8], at: usize) -> Result<[u64; K], Refusal> {
    let mut values = [0; K];
    let Some(line) = file.get(at..at + 5 * K + 1) else { return refuse(8, at) };
    for (value, text) in values.iter_mut().zip(line.chunks(5)) {
        *value = column(text).ok_or(Refusal { number: 8, place: at as u64 })?;
    }
    if line[5 * K] != b'\n' {
        refuse(8, at)
    } else {
        Ok(values)
    }
}

pub fn read(file: &[u8]) -> Result<Wishes, Refusal> {
    let [n, m, d] = columns(file, 0)?;
    if !(1..=256).contains(&n) || m > n || m > MAX_WISHES || d > 64 {
        return refuse(9, 0);
    }
    let mut row = vec![2; n as usize];
    let (mut at, mut last) = (16, 0);
    for _ in 0..m {
        let [setting, mark] = columns(file, at)?;
        if setting <= last || setting > n || mark > 1 {
            return refuse(10, at);
        }
        row[setting as usize - 1] = mark as u8;
        last = setting;
        at += 11;
    }
    if at < file.len() {
        refuse(8, at)
    } else {
        Ok(Wishes { row, d })
    }
}

pub fn write(row: &[u8], d: u64) -> Vec<u8> {
    let mut text = format!("{:5}{:5}{:5}\n", row.len(), wish_count(row), d);
    for (at, wish) in row.iter().enumerate().filter(|(_, &w)| w != 2) {
        text += &format!("{:5}{:5}\n", at + 1, wish);
    }
    text.into_bytes()
}
