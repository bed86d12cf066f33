//! Document 02, L5: "The same terminal for the same wishes." Books that permit the same choices have the same nearest
//! one, however their rules are written.

use crate::both::Both;
use crate::random::Random;
use crate::searches::within_reach;
use calls::lent::wished;
use calls::NEAREST;
use reference::walk;

pub const GROUPS: &[crate::Group] = &[
    ("nearest: twin books, few settings", 1, few),
    ("nearest: twin books, more settings", 1, more),
    ("nearest: twin books, nothing wished", 1, free),
    ("nearest: twin books, 256 settings", 1, largest),
];

type Book = (Vec<i32>, Vec<u8>);

/// The most forks of a call of the reference.
const MOST: u64 = 5_000;

/// So many books, each beside a twin of the same rules in another order and one that has other rules too. For a
/// part of the books the walk alone finds another choice on a twin, or the group would show nothing.
fn twins(both: &mut Both, random: &mut Random, books: usize, mut book: impl FnMut(&mut Random) -> Book) {
    let walked = |list: &[i32], row: &[u8]| walk::least_within(list, row, u64::MAX).unwrap().choice;
    let mut others = 0;
    for _ in 0..books {
        let (list, row) = within_reach(random, MOST, &mut book);
        let n = row.len();
        let answer = both.call(NEAREST, &wished(n as u64, &list, &row, 0), n + 2);
        for more in [false, true] {
            let (twin, _) = within_reach(random, MOST, |r| (r.twin(n, &list, more), row.clone()));
            let same = both.call(NEAREST, &wished(n as u64, &twin, &row, 0), n + 2) == answer;
            both.hold(same, || format!("twins differ: {list:?} and {twin:?} with {row:?}"));
            others += (walked(&list, &row) != walked(&twin, &row)) as usize;
        }
    }
    both.hold(others * 10 > books, || format!("the walk finds the same in all but {others} of {books}"));
}

fn few(both: &mut Both, random: &mut Random) {
    twins(both, random, 1_000, |r| {
        let n = 2 + r.below(11);
        let (rules, wishes) = (1 + r.below(2 * n), r.below(n + 1));
        (r.book(n, rules, 2.min(n), 3.min(n)), r.row(n, wishes))
    });
}

fn more(both: &mut Both, random: &mut Random) {
    twins(both, random, 300, |r| {
        let n = 13 + r.below(30);
        let (rules, wishes) = (n + r.below(2 * n), r.below(n + 1));
        (r.book(n, rules, 2, 4), r.row(n, wishes))
    });
}

fn free(both: &mut Both, random: &mut Random) {
    twins(both, random, 300, |r| {
        let n = 3 + r.below(40);
        let rules = n + r.below(2 * n);
        (r.book(n, rules, 3, 4.min(n)), vec![2; n])
    });
}

fn largest(both: &mut Both, random: &mut Random) {
    twins(both, random, 40, |r| {
        let rules = r.of(&[150, 200, 250]);
        (r.book(256, rules, 3, 5), r.row(256, 64))
    });
}
