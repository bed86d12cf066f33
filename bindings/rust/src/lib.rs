//! The permitted settings nearest to what was wished: the calls of `include/powhanire.h`, on slices.
//!
//! A terminal has settings, numbered from 1 to n, each on or off. A rule list is one run of signed numbers, each rule
//! closed by 0: entry v holds when setting v is on, entry -v when it is off, and a rule is met when one of its entries
//! holds. A wish row has a byte for each setting: [`OFF`], [`ON`] or [`FREE`]. A choice has [`OFF`] or [`ON`] for each,
//! and breaks a wish where it has the other value.
//!
//! ```
//! use powhanire::{nearest, OFF, ON};
//!
//! let rules = [1, 2, 0]; // setting 1 or setting 2 must be on
//! let row = [OFF, OFF]; // both are wished off
//! let mut choice = [0; 2];
//! let broken = nearest(2, &rules, &row, &mut choice)?;
//! assert_eq!((broken, choice), (Some(1), [OFF, ON]));
//! # Ok::<(), powhanire::Refusal>(())
//! ```
//!
//! A call is lent what it reads and, last, what it writes: nothing is allocated or kept. It fills the first part of
//! that slice, and leaves the rest as it was; a longer slice than needed is accepted, and [`room`] has the lengths that
//! always suffice. Where a search answers none, all of the slice is as it was. What is read has just the length that it
//! should have: a row and a choice that are lent to be read have n bytes.
//!
//! What a call cannot use it refuses, and then every slice is as it was: n is from 1 to 640, with up to 9,000 rules and
//! 31,000 entries; where wishes are lent, n is up to 256, with 64 wishes, 4,096 rules and 16,384 entries, and a limit d
//! is from 0 to 64. `docs/MANUAL.md` in the repository has the two files' formats and every refusal.
//!
//! Several threads may call at once. A thread with 512 KB of stack suffices for every call.
//!
//! `build.rs` links `crates/powhanire/out/libpowhanire.a` of this repository, which `rt lib --cpu x86-64` in
//! `crates/powhanire` writes, or the archive in the folder whose full path the variable `POWHANIRE_LIB_DIR` has, as
//! `PREFIX/lib` after `tools/install PREFIX`.

#![warn(missing_docs)]
#![deny(unsafe_code)]

#[allow(unsafe_code)]
pub mod raw;
mod refusal;

use refusal::accepted;
pub use refusal::Refusal;

/// A setting that is off, or wished off.
pub const OFF: u8 = 0;
/// A setting that is on, or wished on.
pub const ON: u8 = 1;
/// In a wish row, a setting that is not wished.
pub const FREE: u8 = 2;

/// How many elements of a lent slice always suffice.
pub mod room {
    /// Numbers, for [`read_rules`](crate::read_rules).
    pub const RULES: usize = 40_000;
    /// Bytes, for [`write_rules`](crate::write_rules).
    pub const RULE_FILE: usize = 173_015;
    /// Bytes, for [`read_wishes`](crate::read_wishes), and for a choice where wishes are lent.
    pub const ROW: usize = 256;
    /// Bytes, for [`write_wishes`](crate::write_wishes).
    pub const WISH_FILE: usize = 720;
    /// Bytes, for a choice of [`plain`](crate::plain).
    pub const CHOICE: usize = 640;
    /// Numbers, for [`rewrite`](crate::rewrite).
    pub const REWRITTEN: usize = 38_914;
    /// Bytes, for [`write_opb`](crate::write_opb).
    pub const OPB_FILE: usize = 165_306;
}

/// What [`read_rules`] found in a rule file.
#[derive(Clone, Copy, Debug, PartialEq, Eq)]
pub struct RuleBook<'a> {
    /// the number of settings, N of the header
    pub settings: u64,
    /// the number of rules, C of the header
    pub rules: u64,
    /// the rule list: the part of the lent slice that was filled
    pub list: &'a [i32],
}

/// What [`read_wishes`] found in a wish file.
#[derive(Clone, Copy, Debug, PartialEq, Eq)]
pub struct Wishes<'a> {
    /// the wish row, of as many bytes as there are settings: the part of the lent slice that was filled
    pub row: &'a [u8],
    /// the number of wishes
    pub wishes: u64,
    /// the limit d
    pub limit: u64,
}

/// What [`check`] says of a choice.
#[derive(Clone, Copy, Debug, PartialEq, Eq)]
pub struct Checked {
    /// whether it meets all rules
    pub met: bool,
    /// how many wishes it breaks, met or not
    pub broken: u64,
}

/// What [`rewrite`] made.
#[derive(Clone, Copy, Debug, PartialEq, Eq)]
pub struct Rewritten<'a> {
    /// the number of settings, with those that were added from n + 1 on
    pub settings: u64,
    /// the rule list: the part of the lent slice that was filled
    pub list: &'a [i32],
}

/// The version that this crate was written for: 10,000 times the major number, 100 times the minor one, and the patch.
pub const VERSION: u64 = 10_000 * number(env!("CARGO_PKG_VERSION_MAJOR"))
    + 100 * number(env!("CARGO_PKG_VERSION_MINOR"))
    + number(env!("CARGO_PKG_VERSION_PATCH"));

const fn number(digits: &str) -> u64 {
    match u64::from_str_radix(digits, 10) {
        Ok(number) => number,
        Err(_) => panic!("a part of the version is no number"),
    }
}

/// The version of the archive that is linked, which should be this crate's.
///
/// ```
/// assert_eq!(powhanire::version(), powhanire::VERSION);
/// ```
pub fn version() -> u64 {
    raw::version()
}

/// Reads a rule file, a narrowed DIMACS CNF, into a rule list. Comment lines are skipped, and an entry that its rule
/// holds already is left out.
///
/// ```
/// use powhanire::{read_rules, room};
///
/// let mut rules = vec![0; room::RULES];
/// let book = read_rules(b"c a stall's terminal\np cnf 3 2\n1 2 1 0\n-3 0\n", &mut rules)?;
/// assert_eq!((book.settings, book.rules, book.list), (3, 2, &[1, 2, 0, -3, 0][..]));
/// # Ok::<(), powhanire::Refusal>(())
/// ```
pub fn read_rules<'a>(file: &[u8], rules: &'a mut [i32]) -> Result<RuleBook<'a>, Refusal> {
    let [settings, count, length] = accepted(raw::read_rules(file, rules))?.value;
    Ok(RuleBook { settings, rules: count, list: &rules[..length as usize] })
}

/// Writes the rule file of a list, without comments; reading it gives the list again.
///
/// ```
/// use powhanire::{room, write_rules};
///
/// let mut file = vec![0; room::RULE_FILE];
/// assert_eq!(write_rules(3, &[1, 2, 0, -3, 0], &mut file)?, b"p cnf 3 2\n1 2 0\n-3 0\n");
/// # Ok::<(), powhanire::Refusal>(())
/// ```
pub fn write_rules<'a>(n: u64, rules: &[i32], file: &'a mut [u8]) -> Result<&'a [u8], Refusal> {
    let [length, ..] = accepted(raw::write_rules(n, rules, file))?.value;
    Ok(&file[..length as usize])
}

/// Reads a wish file into a wish row.
///
/// ```
/// use powhanire::{read_wishes, room, FREE, OFF, ON};
///
/// let mut row = [0; room::ROW];
/// let wishes = read_wishes(b"    3    2    1\n    1    1\n    3    0\n", &mut row)?;
/// assert_eq!((wishes.row, wishes.wishes, wishes.limit), (&[ON, FREE, OFF][..], 2, 1));
/// # Ok::<(), powhanire::Refusal>(())
/// ```
pub fn read_wishes<'a>(file: &[u8], row: &'a mut [u8]) -> Result<Wishes<'a>, Refusal> {
    let [settings, wishes, limit] = accepted(raw::read_wishes(file, row))?.value;
    Ok(Wishes { row: &row[..settings as usize], wishes, limit })
}

/// Writes the wish file of a row and a limit.
///
/// ```
/// use powhanire::{room, write_wishes, FREE, OFF, ON};
///
/// let mut file = [0; room::WISH_FILE];
/// let written = write_wishes(3, &[ON, FREE, OFF], 1, &mut file)?;
/// assert_eq!(written, b"    3    2    1\n    1    1\n    3    0\n");
/// # Ok::<(), powhanire::Refusal>(())
/// ```
pub fn write_wishes<'a>(n: u64, row: &[u8], d: u64, file: &'a mut [u8]) -> Result<&'a [u8], Refusal> {
    let [length, ..] = accepted(raw::write_wishes(n, row, d, file))?.value;
    Ok(&file[..length as usize])
}

/// Says whether a choice meets all rules, and how many wishes it breaks. The choice has n bytes: of a longer slice that
/// a search has filled, lend `&choice[..n]`.
///
/// ```
/// use powhanire::{check, Checked, OFF, ON};
///
/// let checked = check(2, &[1, 2, 0], &[OFF, OFF], &[ON, ON])?;
/// assert_eq!(checked, Checked { met: true, broken: 2 });
/// # Ok::<(), powhanire::Refusal>(())
/// ```
pub fn check(n: u64, rules: &[i32], row: &[u8], choice: &[u8]) -> Result<Checked, Refusal> {
    let answer = accepted(raw::check(n, rules, row, choice))?;
    Ok(Checked { met: answer.verdict == 1, broken: answer.value[0] })
}

/// Finds a choice that meets all rules and breaks at most d wishes, and gives how many it breaks, or none.
///
/// ```
/// use powhanire::{search, OFF};
///
/// let mut choice = [0; 2];
/// assert_eq!(search(2, &[1, 2, 0], &[OFF, OFF], 0, &mut choice)?, None);
/// assert_eq!(search(2, &[1, 2, 0], &[OFF, OFF], 1, &mut choice)?, Some(1));
/// # Ok::<(), powhanire::Refusal>(())
/// ```
pub fn search(n: u64, rules: &[i32], row: &[u8], d: u64, choice: &mut [u8]) -> Result<Option<u64>, Refusal> {
    let answer = accepted(raw::search(n, rules, row, d, choice))?;
    Ok((answer.verdict == 1).then_some(answer.value[0]))
}

/// Finds a choice that meets all rules, and says whether there is one. There are no wishes, so the larger limits hold.
///
/// ```
/// use powhanire::plain;
///
/// let mut choice = [0; 1];
/// assert!(plain(1, &[1, 0], &mut choice)?);
/// assert!(!plain(1, &[1, 0, -1, 0], &mut choice)?);
/// # Ok::<(), powhanire::Refusal>(())
/// ```
pub fn plain(n: u64, rules: &[i32], choice: &mut [u8]) -> Result<bool, Refusal> {
    Ok(accepted(raw::plain(n, rules, choice))?.verdict == 1)
}

/// Finds the first choice that meets all rules and breaks as few wishes as any such choice, off before on, compared
/// from setting 1 upward; gives how many it breaks, or none where no choice meets the rules.
///
/// ```
/// use powhanire::{nearest, FREE, OFF, ON};
///
/// let mut choice = [0; 3];
/// let broken = nearest(3, &[1, 2, 0, -1, 3, 0], &[ON, FREE, OFF], &mut choice)?;
/// assert_eq!((broken, choice), (Some(1), [OFF, ON, OFF]));
/// assert_eq!(nearest(3, &[0], &[ON, FREE, OFF], &mut choice)?, None);
/// # Ok::<(), powhanire::Refusal>(())
/// ```
pub fn nearest(n: u64, rules: &[i32], row: &[u8], choice: &mut [u8]) -> Result<Option<u64>, Refusal> {
    let answer = accepted(raw::nearest(n, rules, row, choice))?;
    Ok((answer.verdict == 1).then_some(answer.value[0]))
}

/// Rewrites rules, wishes and limit into plain rules: a choice can be completed to meet these, in one way, exactly when
/// it meets the given rules and breaks at most d wishes.
///
/// ```
/// use powhanire::{rewrite, room, OFF};
///
/// let mut list = vec![0; room::REWRITTEN];
/// let rewritten = rewrite(2, &[1, 2, 0], &[OFF, OFF], 1, &mut list)?;
/// assert_eq!(rewritten.settings, 4);
/// let counted = [1, 2, -3, 0, -2, 3, 0, 1, -4, 0, -1, 3, 0, 2, -4, 0, -1, -2, 4, 0];
/// assert_eq!(rewritten.list, [&[1, 2, 0][..], &counted, &[-4, 0]].concat());
/// # Ok::<(), powhanire::Refusal>(())
/// ```
pub fn rewrite<'a>(
    n: u64,
    rules: &[i32],
    row: &[u8],
    d: u64,
    rewritten: &'a mut [i32],
) -> Result<Rewritten<'a>, Refusal> {
    let [settings, length, _] = accepted(raw::rewrite(n, rules, row, d, rewritten))?.value;
    Ok(Rewritten { settings, list: &rewritten[..length as usize] })
}

/// Writes rules, wishes and limit as an OPB file, for pseudo-Boolean solvers: a choice satisfies its lines exactly when
/// it meets the rules and breaks at most d wishes.
///
/// ```
/// use powhanire::{room, write_opb, OFF};
///
/// let mut file = vec![0; room::OPB_FILE];
/// let written = write_opb(2, &[1, 2, 0], &[OFF, OFF], 1, &mut file)?;
/// assert_eq!(written, b"* #variable= 2 #constraint= 2\n+1 x1 +1 x2 >= 1 ;\n-1 x1 -1 x2 >= -1 ;\n");
/// # Ok::<(), powhanire::Refusal>(())
/// ```
pub fn write_opb<'a>(n: u64, rules: &[i32], row: &[u8], d: u64, file: &'a mut [u8]) -> Result<&'a [u8], Refusal> {
    let [length, ..] = accepted(raw::write_opb(n, rules, row, d, file))?.value;
    Ok(&file[..length as usize])
}
