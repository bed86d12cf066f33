//! The calls as `include/powhanire.h` has them, on slices: each gives the very numbers that C gets. The calls of the
//! crate's root are these with a [`Result`].
//!
//! ```
//! use powhanire::raw;
//!
//! let mut choice = [9; 2];
//! let answer = raw::nearest(2, &[1, 2, 0], &[0, 0], &mut choice);
//! assert_eq!(answer, raw::Answer { refusal: 0, place: 0, verdict: 1, value: [1, 0, 0] });
//! ```

/// `powhanire_answer` of the header.
#[repr(C)]
#[derive(Clone, Copy, Debug, Default, PartialEq, Eq)]
pub struct Answer {
    /// 0, or the number of the refusal
    pub refusal: u64,
    /// the refusal's place, else 0
    pub place: u64,
    /// searches: 1 found, 0 none; check: 1 met, 0 not; other calls: 1; 0 on a refusal
    pub verdict: u64,
    /// as the header says at each call; 0 where unused, on a refusal and on "none"
    pub value: [u64; 3],
}

mod c {
    use super::Answer;
    extern "C" {
        pub fn powhanire_version() -> u64;
        pub fn powhanire_read_rules(file: *const u8, file_len: usize, rules: *mut i32, rules_len: usize) -> Answer;
        pub fn powhanire_write_rules(
            n: u64,
            rules: *const i32,
            rules_len: usize,
            file: *mut u8,
            file_len: usize,
        ) -> Answer;
        pub fn powhanire_read_wishes(file: *const u8, file_len: usize, row: *mut u8, row_len: usize) -> Answer;
        pub fn powhanire_write_wishes(
            n: u64,
            row: *const u8,
            row_len: usize,
            d: u64,
            file: *mut u8,
            file_len: usize,
        ) -> Answer;
        pub fn powhanire_check(
            n: u64,
            rules: *const i32,
            rules_len: usize,
            row: *const u8,
            row_len: usize,
            choice: *const u8,
            choice_len: usize,
        ) -> Answer;
        pub fn powhanire_search(
            n: u64,
            rules: *const i32,
            rules_len: usize,
            row: *const u8,
            row_len: usize,
            d: u64,
            choice: *mut u8,
            choice_len: usize,
        ) -> Answer;
        pub fn powhanire_plain(
            n: u64,
            rules: *const i32,
            rules_len: usize,
            choice: *mut u8,
            choice_len: usize,
        ) -> Answer;
        pub fn powhanire_nearest(
            n: u64,
            rules: *const i32,
            rules_len: usize,
            row: *const u8,
            row_len: usize,
            choice: *mut u8,
            choice_len: usize,
        ) -> Answer;
        pub fn powhanire_rewrite(
            n: u64,
            rules: *const i32,
            rules_len: usize,
            row: *const u8,
            row_len: usize,
            d: u64,
            rewritten: *mut i32,
            rewritten_len: usize,
        ) -> Answer;
        pub fn powhanire_write_opb(
            n: u64,
            rules: *const i32,
            rules_len: usize,
            row: *const u8,
            row_len: usize,
            d: u64,
            file: *mut u8,
            file_len: usize,
        ) -> Answer;
    }
}

// Why lending slices is sound, at each `unsafe` below: a slice's pointer is good for its length until the call returns;
// the call follows it no further, keeps none, and takes any numbers in it. An empty slice's pointer dangles, and is not
// followed. What is written is a `&mut` slice, so it overlaps none that is read, and any bytes are good in it. Slices
// that are only read may overlap one another in Rust, and may here: none of them changes. A stack that is too short ends
// the process at its guard page, as with Rust's own functions: frames of more than a page touch each page in turn.

/// `powhanire_version`
pub fn version() -> u64 {
    // SAFETY: it takes nothing and returns a number.
    unsafe { c::powhanire_version() }
}

/// `powhanire_read_rules`
pub fn read_rules(file: &[u8], rules: &mut [i32]) -> Answer {
    // SAFETY: lent slices, see above.
    unsafe { c::powhanire_read_rules(file.as_ptr(), file.len(), rules.as_mut_ptr(), rules.len()) }
}

/// `powhanire_write_rules`
pub fn write_rules(n: u64, rules: &[i32], file: &mut [u8]) -> Answer {
    // SAFETY: lent slices, see above.
    unsafe { c::powhanire_write_rules(n, rules.as_ptr(), rules.len(), file.as_mut_ptr(), file.len()) }
}

/// `powhanire_read_wishes`
pub fn read_wishes(file: &[u8], row: &mut [u8]) -> Answer {
    // SAFETY: lent slices, see above.
    unsafe { c::powhanire_read_wishes(file.as_ptr(), file.len(), row.as_mut_ptr(), row.len()) }
}

/// `powhanire_write_wishes`
pub fn write_wishes(n: u64, row: &[u8], d: u64, file: &mut [u8]) -> Answer {
    // SAFETY: lent slices, see above.
    unsafe { c::powhanire_write_wishes(n, row.as_ptr(), row.len(), d, file.as_mut_ptr(), file.len()) }
}

/// `powhanire_check`
pub fn check(n: u64, rules: &[i32], row: &[u8], choice: &[u8]) -> Answer {
    let (r, w, c) = (rules.as_ptr(), row.as_ptr(), choice.as_ptr());
    // SAFETY: lent slices, see above.
    unsafe { c::powhanire_check(n, r, rules.len(), w, row.len(), c, choice.len()) }
}

/// `powhanire_search`
pub fn search(n: u64, rules: &[i32], row: &[u8], d: u64, choice: &mut [u8]) -> Answer {
    let (r, w, c) = (rules.as_ptr(), row.as_ptr(), choice.as_mut_ptr());
    // SAFETY: lent slices, see above.
    unsafe { c::powhanire_search(n, r, rules.len(), w, row.len(), d, c, choice.len()) }
}

/// `powhanire_plain`
pub fn plain(n: u64, rules: &[i32], choice: &mut [u8]) -> Answer {
    // SAFETY: lent slices, see above.
    unsafe { c::powhanire_plain(n, rules.as_ptr(), rules.len(), choice.as_mut_ptr(), choice.len()) }
}

/// `powhanire_nearest`
pub fn nearest(n: u64, rules: &[i32], row: &[u8], choice: &mut [u8]) -> Answer {
    let (r, w, c) = (rules.as_ptr(), row.as_ptr(), choice.as_mut_ptr());
    // SAFETY: lent slices, see above.
    unsafe { c::powhanire_nearest(n, r, rules.len(), w, row.len(), c, choice.len()) }
}

/// `powhanire_rewrite`
pub fn rewrite(n: u64, rules: &[i32], row: &[u8], d: u64, rewritten: &mut [i32]) -> Answer {
    let (r, w, o) = (rules.as_ptr(), row.as_ptr(), rewritten.as_mut_ptr());
    // SAFETY: lent slices, see above.
    unsafe { c::powhanire_rewrite(n, r, rules.len(), w, row.len(), d, o, rewritten.len()) }
}

/// `powhanire_write_opb`
pub fn write_opb(n: u64, rules: &[i32], row: &[u8], d: u64, file: &mut [u8]) -> Answer {
    let (r, w, f) = (rules.as_ptr(), row.as_ptr(), file.as_mut_ptr());
    // SAFETY: lent slices, see above.
    unsafe { c::powhanire_write_opb(n, r, rules.len(), w, row.len(), d, f, file.len()) }
}
