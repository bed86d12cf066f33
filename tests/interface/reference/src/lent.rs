//! Refusals of lent values: 11 to 16.

pub const MAX_N: u64 = 640;
pub const MAX_RULES: usize = 9_000;
pub const MAX_ENTRIES: usize = 31_000;
pub const MAX_WISHES: u64 = 64;

#[derive(Clone, Copy, Debug, PartialEq, Eq)]
pub struct Refusal {
    pub number: u64,
    pub place: u64,
}

pub fn refuse<T>(number: u64, place: usize) -> Result<T, Refusal> {
    Err(Refusal { number, place: place as u64 })
}

/// 14; a call without a limit gives d = 0.
pub fn n_and_d(n: u64, d: u64) -> Result<(), Refusal> {
    if !(1..=MAX_N).contains(&n) || d > 64 {
        refuse(14, 0)
    } else {
        Ok(())
    }
}

/// 13 for a rule list, with n already known to be at most 640. Document 02, L3: "Lent lists may hold opposite entries
/// but not equal ones."
pub fn rules(n: u64, list: &[i32]) -> Result<(), Refusal> {
    let (mut closed, mut entries, mut start) = (0, 0, 0);
    for (at, &e) in list.iter().enumerate() {
        if e == 0 {
            closed += 1;
            start = at + 1;
        } else {
            entries += 1;
        }
        let outside = e.unsigned_abs() as u64 > n;
        let repeated = list[start..at.max(start)].contains(&e);
        if outside || repeated || entries > MAX_ENTRIES || closed > MAX_RULES {
            return refuse(13, at);
        }
    }
    if start < list.len() {
        refuse(13, list.len())
    } else {
        Ok(())
    }
}

/// 13 for a wish row.
pub fn row(row: &[u8]) -> Result<(), Refusal> {
    let mut wishes = 0;
    for (at, &w) in row.iter().enumerate() {
        wishes += (w != 2) as u64;
        if w > 2 || wishes > MAX_WISHES {
            return refuse(13, at);
        }
    }
    Ok(())
}

/// 13 for a given choice.
pub fn choice(choice: &[u8]) -> Result<(), Refusal> {
    match choice.iter().position(|&c| c > 1) {
        Some(at) => refuse(13, at),
        None => Ok(()),
    }
}

/// 11
pub fn length(n: u64, bytes: &[u8]) -> Result<(), Refusal> {
    if bytes.len() as u64 != n {
        refuse(11, 0)
    } else {
        Ok(())
    }
}

/// 12
pub fn small(n: u64, list: &[i32]) -> Result<(), Refusal> {
    let rules = list.iter().filter(|&&e| e == 0).count();
    if n > 256 || rules > 4_096 || list.len() - rules > 16_384 {
        refuse(12, 0)
    } else {
        Ok(())
    }
}

/// 16 (document 02, L2): "a rule without entries, place the first such rule's closing zero"
pub fn entries(list: &[i32]) -> Result<(), Refusal> {
    match (0..list.len()).find(|&at| list[at] == 0 && (at == 0 || list[at - 1] == 0)) {
        Some(at) => refuse(16, at),
        None => Ok(()),
    }
}

/// 15
pub fn room<T>(output: &mut [T], needed: usize) -> Result<&mut [T], Refusal> {
    if output.len() < needed {
        refuse(15, needed)
    } else {
        Ok(output)
    }
}

pub fn wish_count(row: &[u8]) -> u64 {
    row.iter().filter(|&&w| w != 2).count() as u64
}
