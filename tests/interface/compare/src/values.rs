//! Lent values: every fault, and several at once, so that their order is compared.

use crate::both::Both;
use crate::files::a_room;
use crate::random::{without_repeats, Random};
use calls::lent::{chosen, rule_file, ruled, wish_file, wished};
use calls::{Call, Kind, Value, Values, Writes, CHECK, PLAIN, PUBLIC, READ_RULES, READ_WISHES, SEARCH};

pub const GROUPS: &[crate::Group] = &[
    ("values: all lists to length 5", 1, all_lists),
    ("values: all rows to length 4", 1, all_rows),
    ("values: some faults", 60_000, faults),
    ("values: opposite and equal entries", 20_000, opposites_and_equals),
    ("values: huge n and d", 1, huge),
    ("values: limits", 1, limits),
    ("values: very long buffers", 1, very_long),
    ("values: empty buffers", 1, empty),
];

/// A value of each kind but the files.
fn values(n: u64, rules: &[i32], row: &[u8], d: u64, choice: &[u8]) -> Values {
    Values { d, ..chosen(n, rules, row, choice) }
}

/// The calls that read no file.
fn calls_on_values() -> impl Iterator<Item = &'static Call> {
    PUBLIC.iter().copied().filter(|call| !call.lent.iter().any(|kind| kind.is_file()))
}

/// Every call on the same values, with rooms that suffice and do not. The rooms are drawn apart, so that one call more
/// alters no other draw.
fn every_call(both: &mut Both, random: &mut Random, values: &Values) {
    let mut drawn = Random(random.next());
    for call in calls_on_values() {
        match call.writes {
            None => drop(both.call(call, values, 0)),
            Some(Writes::Choice | Writes::Row) => {
                let room = a_room(&mut drawn, values.n.min(700) as usize);
                both.call(call, values, room);
            }
            Some(Writes::File | Writes::List) => every_room(both, &mut drawn, call, values),
        }
    }
}

/// None, more than enough, and around the length needed, which a refusal for the room has as its place.
fn every_room(both: &mut Both, random: &mut Random, call: &'static Call, values: &Values) {
    let none = both.call(call, values, 0).answer;
    let needed = if none.refusal == 15 { none.place as usize } else { 0 };
    both.call(call, values, needed + 1_000);
    for _ in 0..2 {
        let room = a_room(random, needed);
        both.call(call, values, room);
    }
}

/// All lists of the given length over the given values.
fn lists(length: usize, values: &[i32]) -> Vec<Vec<i32>> {
    (0..length).fold(vec![vec![]], |shorter, _| {
        let longer = |list: &Vec<i32>| values.iter().map(|&v| [list.clone(), vec![v]].concat()).collect::<Vec<_>>();
        shorter.iter().flat_map(longer).collect()
    })
}

fn all_lists(both: &mut Both, random: &mut Random) {
    for length in 0..=5 {
        for list in lists(length, &[0, 1, -1, 2, -2, 3]) {
            let row = random.of(&[[0, 0], [0, 1], [1, 2], [2, 2]]);
            every_call(both, random, &values(2, &list, &row, (length % 3) as u64, &[0, 1]));
        }
    }
}

fn all_rows(both: &mut Both, random: &mut Random) {
    for length in 0..=4 {
        for row in lists(length, &[0, 1, 2, 3, 255]) {
            let row: Vec<u8> = row.iter().map(|&w| w as u8).collect();
            for n in [2, 3] {
                every_call(both, random, &values(n, &[1, 2, 0, -1, -2, 0], &row, 1, &[1, 0, 0][..n as usize]));
                every_call(both, random, &values(n, &[1, 2, 0], &[0, 1, 2][..n as usize], 1, &row));
            }
        }
    }
}

/// Sound values, of which each may then be made unsound; n last, so that a list's faults are around the n that it was
/// made for.
fn faults(both: &mut Both, random: &mut Random) {
    let n = random.of(&[1, 2, 3, 5, 8, 20, 64, 65, 255, 256, 257, 640]);
    let (rules, wishes) = (random.below(8), random.of(&[0, 1, 3, 8, 63, 64, 65]));
    let list = random.book(n, rules, 0, 4.min(n));
    let (row, choice, d) = (random.row(n, wishes), random.choice(n), random.of(&[0, 1, 2, 63, 64]));
    let mut values = values(n as u64, &list, &row, d, &choice);
    for &kind in Kind::ALL.iter().rev() {
        let seldom = if matches!(values.value(kind), Value::Number(_)) { 6 } else { 3 };
        if random.once_in(seldom) {
            damage(random, kind, &mut values);
        }
    }
    every_call(both, random, &values);
}

/// A fault in the value of a kind. The files have groups of their own.
fn damage(random: &mut Random, kind: Kind, values: &mut Values) {
    let n = values.n;
    match kind {
        Kind::n => values.n = random.of(&[0, 1, n + 1, 641, 1_000, 1 << 32]),
        Kind::rules => random.damage_list(n as usize, &mut values.rules),
        Kind::row => random.damage_row(&mut values.row),
        Kind::d => values.d = random.of(&[65, 66, 256, 1 << 32, 1 << 63, u64::MAX]),
        Kind::choice => random.damage_row(&mut values.choice),
        Kind::rule_file | Kind::wish_file => {}
    }
}

/// Lists of opposite entries, which every call takes, and the same with an entry once more in its rule, which none
/// takes: "first bad index".
fn opposites_and_equals(both: &mut Both, random: &mut Random) {
    let n = random.of(&[1, 2, 3, 5, 64, 256]);
    let (rules, longest) = (1 + random.below(5), 1 + random.below(8));
    let mut list = without_repeats(&random.loose_book(n, rules, longest));
    let (wishes, d, choice) = (random.below(6), random.below(6) as u64, random.choice(n));
    let row = random.row(n, wishes);
    let checked = both.call(CHECK, &chosen(n as u64, &list, &row, &choice), 0).answer;
    both.hold(checked.refusal == 0, || format!("refused with opposite entries: {list:?}"));
    every_call(both, random, &values(n as u64, &list, &row, d, &choice));
    let at = random.below(list.len());
    if list[at] != 0 {
        let rest = list[at..].iter().position(|&e| e == 0).unwrap();
        let second = at + 1 + random.below(rest);
        list.insert(second, list[at]);
        let checked = both.call(CHECK, &chosen(n as u64, &list, &row, &choice), 0).answer;
        both.hold((checked.refusal, checked.place) == (13, second as u64), || format!("equal entries: {list:?}"));
        every_call(both, random, &values(n as u64, &list, &row, d, &choice));
    }
}

fn huge(both: &mut Both, random: &mut Random) {
    let ns = [0, 1, 2, 640, 641, 1 << 31, 1 << 32, (1 << 32) + 2, 1 << 63, (1 << 63) + 2, u64::MAX - 1, u64::MAX];
    let ds = [0, 1, 64, 65, 255, 256, 1 << 32, (1 << 32) + 1, 1 << 63, u64::MAX];
    for n in ns {
        for d in ds {
            for list in [&[][..], &[1, 2, 0], &[1, 2], &[i32::MIN, 0], &[i32::MAX, 0]] {
                for row in [&[0, 1][..], &[0], &[3, 0], &[]] {
                    every_call(both, random, &values(n, list, row, d, &[0, 1]));
                }
            }
        }
    }
}

fn limits(both: &mut Both, random: &mut Random) {
    // 4,096 rules and 16,384 entries with a row, and one more of each; the 9,000 and 31,000 without
    let book = |rules: usize, entries: usize| -> Vec<i32> {
        let (each, more) = (entries / rules, entries % rules);
        (0..rules).flat_map(|r| (1..=(each + (r < more) as usize) as i32).chain([0])).collect()
    };
    for (rules, entries) in [
        (4_096, 16_384),
        (4_097, 16_384),
        (4_096, 16_385),
        (4_097, 16_385),
        (9_000, 31_000),
        (9_001, 31_000),
        (9_000, 31_001),
    ] {
        let list = book(rules, entries);
        for n in [255, 256, 257, 640] {
            for wishes in [0, 1, 64] {
                for d in [0, 63, 64] {
                    let (row, choice) = (random.row(n, wishes), random.choice(n));
                    every_call(both, random, &values(n as u64, &list, &row, d, &choice));
                }
            }
        }
        for n in [1, 3, 4] {
            every_call(both, random, &values(n, &list, &vec![2; n as usize], 0, &vec![1; n as usize]));
        }
    }
    // the same limits with opposite entries, and equal ones around entry 31,000
    let (senses, more, equal) = ([3, -3, 1, -1, 0], &[2, -2, 0][..], &[1, -1, 3, 1, 0][..]);
    let last_equal = &[1, -1, 3, -3, 3, 0][..];
    for (rules, last) in [
        (4_096, &[][..]),
        (4_095, more),
        (4_096, more),
        (7_750, &[]),
        (7_750, more),
        (7_749, equal),
        (7_749, last_equal),
    ] {
        let list = [&senses.repeat(rules)[..], last].concat();
        for row in [[2, 2, 2], [0, 1, 2]] {
            every_call(both, random, &values(3, &list, &row, 1, &[0, 0, 1]));
        }
    }
    // empty rules, closed up to the limit and past it, with and without the last zero
    for closed in [4_095, 4_096, 4_097, 8_999, 9_000, 9_001] {
        let mut list = vec![0; closed];
        every_call(both, random, &values(3, &list, &[0, 2, 1], 1, &[1, 1, 1]));
        list.push(2);
        every_call(both, random, &values(3, &list, &[0, 2, 1], 1, &[1, 1, 1]));
        list.push(-2);
        every_call(both, random, &values(3, &list, &[0, 2, 1], 1, &[1, 1, 1]));
    }
    // the wishes: 63 to 66, at both ends of the row, and rows longer than any n
    for n in [64, 65, 66, 256, 257, 640, 1_000] {
        for wishes in [63, 64, 65, 66] {
            let mut row = vec![2; n];
            row[..wishes.min(n)].fill(0);
            every_call(both, random, &values(n.min(640) as u64, &[1, 0], &row, 64, &vec![0; n.min(640)]));
            row.reverse();
            every_call(both, random, &values(n.min(640) as u64, &[1, 0], &row, 64, &vec![0; n.min(640)]));
        }
    }
}

/// Far past every limit.
fn very_long(both: &mut Both, random: &mut Random) {
    let (zeros, bytes) = (vec![0; 200_000], vec![2; 200_000]);
    let ones: Vec<i32> = (0..200_000).map(|k| k % 2).collect();
    for n in [1, 256, 640] {
        let few = vec![2; n as usize];
        for list in [&zeros, &ones] {
            every_call(both, random, &values(n, list, &few, 0, &few));
        }
        every_call(both, random, &values(n, &[1, 0], &bytes, 0, &few));
        every_call(both, random, &values(n, &[1, 0], &few, 0, &vec![1; 200_000]));
        both.call(PLAIN, &ruled(n, &[1, 0]), 200_000);
        both.call(SEARCH, &wished(n, &[1, 0], &few, 0), 200_000);
    }
    for byte in *b" \nc0" {
        let body = vec![byte; 500_000];
        both.call(READ_RULES, &rule_file(&body), 10);
        both.call(READ_RULES, &rule_file(&[b"p cnf 1 1\n1 0", &body[..]].concat()), 10);
        both.call(READ_RULES, &rule_file(&[b"c", &body[..], b"\np cnf 1 1\n1 0"].concat()), 10);
        both.call(READ_WISHES, &wish_file(&body), 10);
        both.call(READ_WISHES, &wish_file(&[b"    1    0    0\n", &body[..]].concat()), 10);
    }
}

/// A buffer of length 0 stands at a page that may not be touched.
fn empty(both: &mut Both, random: &mut Random) {
    both.call(READ_RULES, &rule_file(&[]), 0);
    both.call(READ_RULES, &rule_file(b"p cnf 1 0\n"), 0);
    both.call(READ_WISHES, &wish_file(&[]), 0);
    both.call(READ_WISHES, &wish_file(b"    1    0    0\n"), 0);
    for n in [0, 1, 2, 640, 641] {
        for list in [&[][..], &[0], &[1, 0]] {
            for row in [&[][..], &[2], &[1]] {
                for choice in [&[][..], &[0], &[2]] {
                    every_call(both, random, &values(n, list, row, 0, choice));
                }
            }
            for call in calls_on_values() {
                both.call(call, &values(n, list, &[1], 0, &[]), 0);
            }
        }
    }
}
