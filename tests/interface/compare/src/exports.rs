//! The export to OPB: every byte of its file, and what its lines say of every choice.

use crate::both::Both;
use crate::files::rooms;
use crate::random::Random;
use calls::lent::{chosen, wished};
use calls::{CHECK, WRITE_OPB};
use reference::opb;

pub const GROUPS: &[crate::Group] = &[
    ("OPB: tiny books, every d, every choice", 2_000, tiny),
    ("OPB: opposite entries, every choice", 1_000, opposites),
    ("OPB: every room", 200, every_room),
    ("OPB: K around 0", 1, around_zero),
    ("OPB: every number of wishes", 1, every_count),
    ("OPB: empty rules", 4_000, empty_rules),
    ("OPB: as many digits as there can be", 1, digits),
    ("OPB: the largest books", 1, largest),
];

/// Room for any file, as include/powhanire.h says.
const ENOUGH: usize = 165_306;

/// The file with all the room it may need, and with others around its length.
fn export(both: &mut Both, random: &mut Random, n: usize, rules: &[i32], row: &[u8], d: u64) {
    let lent = wished(n as u64, rules, row, d);
    let length = both.call(WRITE_OPB, &lent, ENOUGH).answer.value[0];
    for room in rooms(random, length as usize) {
        both.call(WRITE_OPB, &lent, room);
    }
}

/// "A choice satisfies the lines exactly when it meets the rules within d", by the library's checking call.
fn every_choice(both: &mut Both, n: usize, list: &[i32], row: &[u8]) {
    let choices: Vec<Vec<u8>> = (0..1 << n).map(|bits| (0..n).map(|v| (bits >> v & 1) as u8).collect()).collect();
    let check = |choice: &Vec<u8>| both.call(CHECK, &chosen(n as u64, list, row, choice), 0).answer;
    let checked: Vec<_> = choices.iter().map(check).collect();
    for d in (0..=n as u64 + 1).chain([64]) {
        let written = both.call(WRITE_OPB, &wished(n as u64, list, row, d), 2_000);
        let read = opb::read(&written.bytes[..written.answer.value[0] as usize]);
        both.hold(read.as_ref().is_some_and(|r| r.0 == n), || "the file has no such lines".to_string());
        let lines = read.map_or(vec![], |r| r.1);
        for (choice, checked) in choices.iter().zip(&checked) {
            let within = checked.verdict == 1 && checked.value[0] <= d;
            let satisfied = lines.iter().all(|line| line.satisfied(choice));
            both.hold(satisfied == within, || format!("rules {list:?} row {row:?} d {d}: the lines on {choice:?}"));
        }
    }
}

fn tiny(both: &mut Both, random: &mut Random) {
    let n = 1 + random.below(5);
    let (rules, wishes) = (random.below(2 * n), random.below(n + 1));
    let (list, row) = (random.book(n, rules, 1, 3.min(n)), random.row(n, wishes));
    every_choice(both, n, &list, &row);
}

fn opposites(both: &mut Both, random: &mut Random) {
    let n = 1 + random.below(4);
    let (rules, wishes) = (1 + random.below(3 * n), random.below(n + 1));
    let list = random.book(n, rules, 1, 3.min(n));
    let (list, row) = (random.oppose(&list), random.row(n, wishes));
    every_choice(both, n, &list, &row);
}

fn every_room(both: &mut Both, random: &mut Random) {
    let n = random.of(&[1, 3, 10, 100, 256]);
    let (rules, wishes, d) = (random.below(5), random.below(6), random.below(65) as u64);
    let (list, row) = (random.book(n, rules, 1, 4.min(n)), random.row(n, wishes));
    let lent = wished(n as u64, &list, &row, d);
    let length = both.call(WRITE_OPB, &lent, ENOUGH).answer.value[0];
    for room in 0..length as usize + 3 {
        both.call(WRITE_OPB, &lent, room);
    }
}

/// A rule of so many positive entries and negative ones, in any order.
fn signed(random: &mut Random, positive: usize, negative: usize) -> Vec<i32> {
    let mut rule = random.rule(256, positive + negative);
    rule.iter_mut().for_each(|e| *e = e.abs());
    let mut left = negative;
    while left > 0 {
        let at = random.below(rule.len());
        left -= (rule[at] > 0) as usize;
        rule[at] = -rule[at].abs();
    }
    rule.push(0);
    rule
}

/// A row of so many settings wished on, and off.
fn marked(random: &mut Random, n: usize, on: usize, off: usize) -> Vec<u8> {
    let mut row = random.row(n, on + off);
    let mut left = on;
    for wish in row.iter_mut().filter(|w| **w != 2) {
        *wish = (left > 0) as u8;
        left = left.saturating_sub(1);
    }
    row
}

fn around_zero(both: &mut Both, random: &mut Random) {
    let free = vec![2; 256];
    for positive in 0..=3 {
        for negative in (0..=13).chain(98..=103).chain([200, 253]) {
            if positive + negative > 0 {
                let rule = signed(random, positive, negative);
                export(both, random, 256, &rule, &free, 0);
            }
        }
    }
    let all: Vec<i32> = (1..=256).map(|v| -v).chain([0]).collect();
    export(both, random, 256, &all, &free, 0);
    for count in [1, 2, 9, 10, 11, 99, 100, 101, 102, 256] {
        let senses: Vec<i32> = (1..=count).flat_map(|v| [v, -v]).chain([0]).collect();
        export(both, random, 256, &senses, &free, 0);
    }
    for on in 0..=4 {
        for off in 0..=4 {
            for d in 0..=9 {
                let row = marked(random, 10, on, off);
                export(both, random, 10, &[1, -2, 0], &row, d);
                export(both, random, 10, &[], &row, d);
            }
        }
    }
}

/// K from the number wished on less d, with d up to the number of wishes and above it.
fn every_count(both: &mut Both, random: &mut Random) {
    for wishes in 0..=64 {
        for on in [0, 1, wishes / 2, wishes] {
            let on = on.min(wishes);
            let row = marked(random, 64 + wishes, on, wishes - on);
            for d in [0, 1, on.saturating_sub(1), on, on + 1, on + 9, on + 10, wishes, wishes + 1, 63, 64, 65] {
                both.call(WRITE_OPB, &wished(row.len() as u64, &[1, -2, 0], &row, d as u64), 800);
            }
        }
    }
}

/// Empty rules anywhere, beside every other cause to refuse.
fn empty_rules(both: &mut Both, random: &mut Random) {
    let mut n = random.of(&[1, 2, 5, 256]);
    let (rules, wishes) = (random.below(6), random.below(4));
    let mut list = random.book(n, rules, 1, 4.min(n));
    for _ in 0..random.below(3) {
        let places: Vec<usize> = (0..=list.len()).filter(|&at| at == 0 || list[at - 1] == 0).collect();
        list.insert(random.of(&places), 0);
    }
    let mut row = random.row(n, wishes);
    let mut d = random.below(65) as u64;
    if random.once_in(8) {
        list.extend([1, 0].repeat(4_092 + random.below(8)));
    }
    if random.once_in(8) {
        random.damage_list(n, &mut list);
    }
    if random.once_in(8) {
        random.damage_row(&mut row);
    }
    if random.once_in(8) {
        n += 1;
    }
    if random.once_in(8) {
        d = 65;
    }
    export(both, random, n, &list, &row, d);
}

/// N, C and V of one to as many digits as there can be.
fn digits(both: &mut Both, random: &mut Random) {
    for n in [1, 9, 10, 11, 99, 100, 101, 255, 256, 257] {
        for rules in [0, 1, 8, 9, 10, 98, 99, 100, 998, 999, 1_000, 4_095, 4_096, 4_097] {
            let list = [n as i32, 0, -(n as i32), 0].repeat(2_049);
            for wish in [0, 1, 2] {
                let mut row = vec![2; n];
                row[n - 1] = wish;
                export(both, random, n, &list[..2 * rules], &row, 1);
            }
        }
    }
}

fn largest(both: &mut Both, random: &mut Random) {
    let books = [
        random.book(256, 4_096, 4, 4),
        reference::opb::longest_list(),
        // long rules
        (0..64).flat_map(|_| (1..=256).map(|v| -v).chain([0])).collect(),
        // an empty rule at the end, one more rule, one more entry
        [&random.book(256, 4_095, 4, 4)[..], &[0]].concat(),
        [&random.book(256, 4_096, 1, 4)[..], &[0]].concat(),
        [&random.book(256, 4_095, 4, 4)[..], &[1, 2, 3, 4, 5, 0]].concat(),
    ];
    let (mut longest, mut last) = (0, vec![2; 192]);
    last.resize(256, 0);
    for list in &books {
        for row in [&last, &random.row(256, 64), &random.row(256, 0)] {
            for d in [0, 1, 63, 64] {
                export(both, random, 256, list, row, d);
                longest = longest.max(both.call(WRITE_OPB, &wished(256, list, row, d), ENOUGH).answer.value[0]);
            }
        }
    }
    both.hold(longest == ENOUGH as u64, || format!("the longest file has {longest} bytes"));
}
