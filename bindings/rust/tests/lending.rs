//! What safe Rust may lend and C seldom does: empty slices, whose pointers dangle, and slices that overlap where they
//! are only read.

use powhanire::{check, nearest, plain, read_rules, read_wishes, rewrite, write_opb, write_rules, write_wishes};
use powhanire::{Checked, Refusal, OFF, ON};

fn refusal<T>(number: u64, place: u64) -> Result<T, Refusal> {
    Err(Refusal { number, place })
}

#[test]
fn empty() {
    assert_eq!(read_rules(&[], &mut []), refusal(1, 0));
    assert_eq!(read_rules(b"p cnf 1 0\n", &mut []).map(|book| book.list), Ok(&[][..]));
    assert_eq!(read_wishes(&[], &mut []), refusal(8, 0));
    assert_eq!(write_rules(1, &[], &mut []), refusal(15, 10));
    assert_eq!(write_wishes(1, &[], 0, &mut []), refusal(11, 0));
    assert_eq!(check(1, &[], &[], &[]), refusal(11, 0));
    assert_eq!(plain(1, &[], &mut []), refusal(15, 1));
    assert_eq!(nearest(1, &[], &[ON], &mut [9]), Ok(Some(0)));
    assert_eq!(rewrite(1, &[], &[ON], 0, &mut []), refusal(15, 2));
    assert_eq!(write_opb(1, &[], &[], 0, &mut []), refusal(11, 0));
}

#[test]
fn overlapping() {
    let both = [ON, OFF, ON];
    assert_eq!(check(2, &[1, 2, 0], &both[..2], &both[1..]), Ok(Checked { met: true, broken: 2 }));
    assert_eq!(check(2, &[-1, 0], &both[..2], &both[..2]), Ok(Checked { met: false, broken: 0 }));
}
