//! Nearest as document 02, L5, has it: "Nearest now returns the first nearest choice, off before on, compared from
//! setting 1 upward." There are two ways to it, so that one can be held to the other.

use crate::walk::{self, broken, met, Outcome};

/// The most settings of which every choice is looked at.
const LISTED: usize = 12;

pub fn nearest(list: &[i32], row: &[u8]) -> Option<Vec<u8>> {
    if row.len() <= LISTED {
        of_all(list, row)
    } else {
        by_searches(list, row, u64::MAX).unwrap().choice
    }
}

/// Every choice, in the order in which the first is meant.
pub fn choices(n: usize) -> impl Iterator<Item = Vec<u8>> {
    (0u32..1 << n).map(move |bits| (0..n).rev().map(|place| (bits >> place & 1) as u8).collect())
}

/// Of the choices that meet the rules, the first that breaks fewest wishes.
pub fn of_all(list: &[i32], row: &[u8]) -> Option<Vec<u8>> {
    // of equal ones `min_by_key` gives the first
    choices(row.len()).filter(|choice| met(list, choice)).min_by_key(|choice| broken(row, choice))
}

/// The least count by the walk; then, setting by setting, whether a choice within it has the settings before as they
/// are and this one off, which single-entry rules in front of the others ask. None if all this takes more than `most`
/// forks.
pub fn by_searches(list: &[i32], row: &[u8], most: u64) -> Option<Outcome> {
    let mut outcome = walk::least_within(list, row, most)?;
    let Some(mut choice) = outcome.choice.take() else { return Some(outcome) };
    let (count, mut asked) = (broken(row, &choice), Vec::new());
    for at in 0..row.len() {
        let setting = at as i32 + 1;
        // the choice found last may have it off already
        if choice[at] == 1 {
            let off = [&asked[..], &[-setting, 0], list].concat();
            let searched = walk::search_within(&off, row, count, most - outcome.forks)?;
            outcome.forks += searched.forks;
            outcome.deepest = outcome.deepest.max(searched.deepest);
            choice = searched.choice.unwrap_or(choice);
        }
        asked.extend([if choice[at] == 1 { setting } else { -setting }, 0]);
    }
    Some(Outcome { choice: Some(choice), ..outcome })
}
