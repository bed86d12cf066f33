//! The searches and rewriting on sound books: the same verdict, count and choice, and both routes alike.

use crate::both::Both;
use crate::files::rooms;
use crate::random::{ladder, met_ladder, without_opposites, Random};
use calls::lent::{chosen, rule_file, ruled, wished};
use calls::{CHECK, NEAREST, PLAIN, READ_RULES, REWRITE, SEARCH, WRITE_RULES};
use reference::lent::wish_count;
use reference::{first, totalizer, walk};

pub const GROUPS: &[crate::Group] = &[
    ("searches: tiny books, every d", 4_000, tiny),
    ("searches: small books, every d", 400, small),
    ("searches: long and short rules", 300, long_rules),
    ("searches: opposite entries, every d", 3_000, opposites),
    ("searches: opposite entries, more settings", 400, more_opposites),
    ("searches: opposite entries in long rules", 300, long_opposites),
    ("searches: thousands of forks", 20, many_forks),
    ("searches: 64 wishes, d from 0 to 65", 8, many_wishes),
    ("searches: books of the file's size", 40, plain_large),
    ("searches: 256 settings, 64 wishes", 60, wished_large),
    ("searches: the deepest paths", 1, deepest),
    ("rewriting: every number of wishes", 1, every_count),
];

/// Rewriting, the writer, the reader and plain search, each on what the one before it left.
fn second_route(both: &mut Both, n: u64, rules: &[i32], row: &[u8], d: u64) -> bool {
    let made = both.call(REWRITE, &wished(n, rules, row, d), rules.len() + 18_434);
    let [settings, length, _] = made.answer.value;
    let list = &made.numbers[..length as usize];
    let written = both.call(WRITE_RULES, &ruled(settings, list), 15 + 5 * list.len());
    let file = &written.bytes[..written.answer.value[0] as usize];
    let read = both.call(READ_RULES, &rule_file(file), list.len());
    let [settings, _, length] = read.answer.value;
    let found = both.call(PLAIN, &ruled(settings, &read.numbers[..length as usize]), settings as usize);
    let none_refused = [made.answer, written.answer, read.answer, found.answer].iter().all(|a| a.refusal == 0);
    both.hold(none_refused, || "the second route was refused".to_string());
    if found.answer.verdict == 1 {
        let checked = both.call(CHECK, &chosen(n, rules, row, &found.bytes[..n as usize]), 0).answer;
        both.hold(checked.verdict == 1 && checked.value[0] <= d, || {
            "the second route's choice is not permitted".to_string()
        });
    }
    found.answer.verdict == 1
}

/// Both routes at each d, and nearest.
fn routes(both: &mut Both, random: &mut Random, n: usize, rules: &[i32], row: &[u8], ds: &[u64]) {
    let near = both.call(NEAREST, &wished(n as u64, rules, row, 0), n + random.below(3)).answer;
    for &d in ds {
        let first = both.call(SEARCH, &wished(n as u64, rules, row, d), n + random.below(3));
        if first.answer.verdict == 1 {
            let checked = both.call(CHECK, &chosen(n as u64, rules, row, &first.bytes[..n]), 0);
            both.hold(checked.answer == first.answer, || "the choice found is not what the search says".to_string());
        }
        let second = second_route(both, n as u64, rules, row, d);
        let within = near.verdict == 1 && near.value[0] <= d;
        both.hold((first.answer.verdict == 1) == within && second == within, || format!("routes differ at d {d}"));
    }
}

fn every_d(row: &[u8]) -> Vec<u64> {
    (0..=wish_count(row) + 1).chain([64]).collect()
}

fn tiny(both: &mut Both, random: &mut Random) {
    let n = 1 + random.below(6);
    let (rules, wishes) = (random.below(4 * n), random.below(n + 1));
    let (list, row) = (random.book(n, rules, (rules % 7 != 0) as usize, 3.min(n)), random.row(n, wishes));
    routes(both, random, n, &list, &row, &every_d(&row));
    let choice = random.choice(n);
    both.call(CHECK, &chosen(n as u64, &list, &row, &choice), 0);
    for room in rooms(random, n) {
        both.call(PLAIN, &ruled(n as u64, &list), room);
        both.call(SEARCH, &wished(n as u64, &list, &row, 1), room);
        both.call(NEAREST, &wished(n as u64, &list, &row, 0), room);
    }
}

fn small(both: &mut Both, random: &mut Random) {
    let n = 7 + random.below(12);
    let (rules, wishes) = (n * (10 + random.below(40)) / 10, random.below(n + 1));
    let longest = 2 + random.below(5);
    let (list, row) = (random.book(n, rules, 2, longest), random.row(n, wishes));
    routes(both, random, n, &list, &row, &every_d(&row));
}

/// Rules around ten entries, where the weights stop falling, some with a few short ones beside them. Most
/// entries are positive, or the first completion would meet them all.
fn long_rules(both: &mut Both, random: &mut Random) {
    let n = 14 + random.below(20);
    let rules = 1 + random.below(2 * n);
    let mut list = random.book(n, rules, 9, 13);
    list.iter_mut().for_each(|e| *e = if random.once_in(8) { *e } else { e.abs() });
    if random.once_in(3) {
        list.extend(random.book(n, n, 2, 4));
    }
    let wishes = random.below(n + 1);
    let row: Vec<u8> = random.row(n, wishes).iter().map(|&w| if random.once_in(4) { w } else { w & 2 }).collect();
    both.call(PLAIN, &ruled(n as u64, &list), n);
    both.call(NEAREST, &wished(n as u64, &list, &row, 0), n);
    for d in 0..4 {
        both.call(SEARCH, &wished(n as u64, &list, &row, d), n);
    }
}

/// "Opposite entries are both stored, and such a rule is always met": without such rules a book has the same answers.
fn same_without_opposites(both: &mut Both, n: usize, list: &[i32], row: &[u8]) {
    let fewer = without_opposites(list);
    let near = [list, &fewer].map(|list| both.call(NEAREST, &wished(n as u64, list, row, 0), n));
    let plain = [list, &fewer].map(|list| both.call(PLAIN, &ruled(n as u64, list), n).answer);
    both.hold(near[0] == near[1] && plain[0] == plain[1], || {
        format!("rules of both senses count in {list:?} with {row:?}")
    });
}

fn opposites(both: &mut Both, random: &mut Random) {
    let n = 1 + random.below(6);
    let (rules, wishes) = (1 + random.below(6 * n), random.below(n + 1));
    let list = random.book(n, rules, (rules % 7 != 0) as usize, 3.min(n));
    let (list, row) = (random.oppose(&list), random.row(n, wishes));
    routes(both, random, n, &list, &row, &every_d(&row));
    same_without_opposites(both, n, &list, &row);
}

fn more_opposites(both: &mut Both, random: &mut Random) {
    let n = 7 + random.below(12);
    let (rules, wishes) = (n * (15 + random.below(50)) / 10, random.below(n + 1));
    let longest = 2 + random.below(5);
    let list = random.book(n, rules, 2, longest);
    let (list, row) = (random.oppose(&list), random.row(n, wishes));
    routes(both, random, n, &list, &row, &every_d(&row));
    same_without_opposites(both, n, &list, &row);
}

/// Rules of eight to thirteen entries, both senses of a setting among them, and short ones beside them.
fn long_opposites(both: &mut Both, random: &mut Random) {
    let n = 10 + random.below(10);
    let (rules, wishes) = (2 + random.below(2 * n), random.below(n + 1));
    let list = [random.book(n, rules, 7, 10), random.book(n, 2 * n, 2, 3)].concat();
    let (list, row) = (random.oppose(&list), random.row(n, wishes));
    both.call(PLAIN, &ruled(n as u64, &list), n);
    both.call(NEAREST, &wished(n as u64, &list, &row, 0), n);
    for d in 0..4 {
        both.call(SEARCH, &wished(n as u64, &list, &row, d), n);
    }
}

/// Every setting wished, and rules enough to break many wishes.
fn many_forks(both: &mut Both, random: &mut Random) {
    let (list, row) = (random.book(64, 180, 3, 3), random.row(64, 64));
    both.call(NEAREST, &wished(64, &list, &row, 0), 64);
}

/// A book and a row on which the reference's nearest, which climbs the limits by the walk, makes few enough forks for a
/// test. The library's makes fewer; tests/programs/run has it on larger books.
pub fn within_reach(
    random: &mut Random,
    most: u64,
    mut book: impl FnMut(&mut Random) -> (Vec<i32>, Vec<u8>),
) -> (Vec<i32>, Vec<u8>) {
    loop {
        let (list, row) = book(random);
        if first::by_searches(&list, &row, most).is_some() {
            return (list, row);
        }
    }
}

fn many_wishes(both: &mut Both, random: &mut Random) {
    let n = random.of(&[64, 70, 100]);
    let (list, row) = within_reach(random, 3_000, |r| (r.book(n, 2 * n, 3, 4), r.row(n, 64)));
    both.call(NEAREST, &wished(n as u64, &list, &row, 0), n);
    for d in 0..=65 {
        both.call(SEARCH, &wished(n as u64, &list, &row, d), n);
        both.call(REWRITE, &wished(n as u64, &list, &row, d), 38_914);
    }
    // plain search may take very long with the counters, so only where it does not
    let quick = |&d: &u64| {
        let (settings, rewritten) = totalizer::rewrite(n as u64, &list, &row, d);
        walk::search_within(&rewritten, &vec![2; settings as usize], 0, 500).is_some()
    };
    let ds: Vec<u64> = (0..10).chain([63, 64]).filter(quick).collect();
    routes(both, random, n, &list, &row, &ds);
}

fn plain_large(both: &mut Both, random: &mut Random) {
    let n = random.of(&[300, 640]);
    let (rules, longest) = random.of(&[(9_000, 5), (6_000, 7), (2_000, 20), (900, 3)]);
    let mut list = random.book(n, rules, 2.max(longest - 3), longest);
    while list.len() - rules > 31_000 {
        list = random.book(n, rules, 2, longest - 1);
    }
    both.call(PLAIN, &ruled(n as u64, &list), n);
}

fn wished_large(both: &mut Both, random: &mut Random) {
    let n = 256;
    let rules = random.of(&[200, 250, 300, 350]);
    let (list, row) = within_reach(random, 5_000, |r| (r.book(n, rules, 3, 5), r.row(n, 64)));
    let near = both.call(NEAREST, &wished(n as u64, &list, &row, 0), n).answer;
    for d in near.value[0].saturating_sub(2)..near.value[0] + 2 {
        both.call(SEARCH, &wished(n as u64, &list, &row, d), n);
    }
    let dense = random.book(n, 4_096, 3, 5);
    for d in 0..2 {
        both.call(SEARCH, &wished(n as u64, &dense, &row, d), n);
    }
    let choice = random.choice(n);
    both.call(CHECK, &chosen(n as u64, &dense, &row, &choice), 0);
    both.call(CHECK, &chosen(n as u64, &list, &row, &choice), 0);
}

fn deepest(both: &mut Both, _: &mut Random) {
    let list = ladder(640);
    let made = walk::search(&list, &[2; 640], 0);
    both.hold(made.deepest == 639, || format!("{} forks on a path, not 639", made.deepest));
    both.call(PLAIN, &ruled(640, &list), 640);
    // with a row: 64 wishes that the path breaks, and that it keeps
    let list = ladder(256);
    for (wish, d) in [(0, 64), (1, 0), (2, 0)] {
        let mut row = vec![2; 256];
        row[..64].fill(wish);
        let made = walk::search(&list, &row, d);
        both.hold(made.deepest == 255, || format!("{} forks on a path, not 255", made.deepest));
        both.call(SEARCH, &wished(256, &list, &row, d), 256);
        if d == 0 {
            both.call(NEAREST, &wished(256, &list, &row, 0), 256);
        }
    }
    // a path that nearest comes to for the first choice alone; where nothing is wished there are no cores, and the
    // library forks as the walk does
    let (list, mut row) = (met_ladder(256), vec![2; 256]);
    for wishes in [0, 64] {
        row[1..1 + wishes].fill(1);
        let searches = [walk::least_within, first::by_searches];
        let [counted, made] = searches.map(|search| search(&list, &row, u64::MAX).unwrap().deepest);
        both.hold((counted, made) == (1, 254), || format!("{counted} and then {made} forks on a path"));
        both.call(NEAREST, &wished(256, &list, &row, 0), 256);
    }
}

fn every_count(both: &mut Both, random: &mut Random) {
    for wishes in 0..=64 {
        let row = random.row(64 + wishes, wishes);
        for d in [0, 1, wishes.saturating_sub(1), wishes, 64] {
            both.call(REWRITE, &wished(row.len() as u64, &[1, -2, 0, 0], &row, d as u64), 18_434 + 4);
        }
    }
}
