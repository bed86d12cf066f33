//! The reference held to document 01 and to what document 02 changes in it and adds: examples, and all choices of small
//! books by brute force.

use reference::first::choices;
use reference::walk::{broken, met};
use reference::*;

fn refused(a: Answer) -> (u64, u64) {
    (a.refusal, a.place)
}

fn read(file: &str) -> (Answer, Vec<i32>) {
    let mut rules = vec![0; 40_000];
    let a = read_rules(file.as_bytes(), &mut rules);
    rules.truncate(a.value[2] as usize);
    (a, rules)
}

#[test]
fn examples() {
    let mut c = [9; 2];
    assert_eq!(nearest(2, &[1, 2, 0], &[0, 0], &mut c).value[0], 1);
    assert_eq!(c, [0, 1]); // by document 02, L5
    let mut c = [9; 2];
    assert_eq!(search(2, &[1, 2, 0], &[0, 0], 0, &mut c).verdict, 0);
    assert_eq!(c, [9; 2]);
    assert_eq!(search(2, &[1, 2, 0], &[0, 0], 1, &mut c), Answer { verdict: 1, value: [1, 0, 0], ..Answer::default() });
    assert_eq!(nearest(2, &[0], &[0, 0], &mut c), Answer::default());
    assert_eq!(search(1, &[], &[1], 0, &mut c[..1]).verdict, 1);
    assert_eq!(c[0], 1);
    for (file, refusal, place) in [
        ("p cnf 0 0\n", 2, 0),
        ("p cnf 0 0", 1, 0),
        ("p cnf 640 0\n", 0, 0),
        ("p cnf 641 0\n", 2, 0),
        ("", 1, 0),
        ("p cnf 1 1\n-0 0", 3, 10),
        ("p cnf 1 1\n2 0", 4, 10),
        ("p cnf 1 1\n1 -1 0", 0, 0), // by document 02, L3
        ("p cnf 1 1\n1", 6, 11),
        ("c one\nc two", 1, 11),
        ("c one\n\np cnf 1 0\n", 1, 6),
    ] {
        assert_eq!(refused(read(file).0), (refusal, place), "{file:?}");
    }
    assert_eq!(refused(read_wishes(&[b' '; 15], &mut [])), (8, 0));
    assert_eq!(refused(search(1, &[], &[1], 64, &mut c)), (0, 0));
    assert_eq!(refused(search(1, &[], &[1], 65, &mut c)), (14, 0));
}

/// Document 02, L1: "A line beginning with `c` is now skipped anywhere after the header too. .. A `c` inside a line
/// still makes a malformed token."
#[test]
fn comments_between_rules() {
    for file in [
        "p cnf 2 2\nc\n1 2 0\n-1 0\n",
        "p cnf 2 2\n1 2 0\ncat 1 2 0\n-1 0\n",
        "p cnf 2 2\n1\nc p cnf 1 0\n2 0\n-1\nc\n\n\nc\n0\n",
        "p cnf 2 2\n1 2 0\n-1 0\nc",
        "p cnf 2 2\n1 2 0\r\nc 0\r\n-1 0\r\nc 1\r1 0",
    ] {
        let (a, rules) = read(file);
        assert_eq!((a.refusal, a.value, &rules[..]), (0, [2, 2, 5], &[1, 2, 0, -1, 0][..]), "{file:?}");
    }
    for (file, refusal, place) in [
        ("p cnf 2 1\nc only\nc remarks", 6, 26),
        ("c x\r\np cnf 2 1\r\n1 0\r\n", 1, 5),
        ("p cnf 2 1\n c\n1 0\n", 3, 11),
        ("p cnf 2 1\n1 c\n0\n", 3, 12),
        ("p cnf 2 1\n1 2 0 c x\n", 3, 16),
        ("p cnf 2 1\n1 2 0\rc x\n", 3, 16),
        ("p cnf 2 1\n1 0\nc\n1 0\n", 6, 16),
        ("p cnf 2 1\nc\r1 0\n", 6, 16),
    ] {
        assert_eq!(refused(read(file).0), (refusal, place), "{file:?}");
    }
}

/// Document 02, L3: "An equal entry is stored once, at its first place. Opposite entries are both stored"
#[test]
fn repeated_entries() {
    for (file, n, list) in [
        ("p cnf 1 1\n1 -1 0", 1, &[1, -1, 0][..]),
        ("p cnf 1 1\n1 1 0", 1, &[1, 0]),
        ("p cnf 1 2\n-1 -1 -1 0 1 0", 1, &[-1, 0, 1, 0]),
        ("p cnf 1 1\n-1 1 1 -1 0", 1, &[-1, 1, 0]),
        ("p cnf 3 2\n3 1 -2 1 3 0\n3 -3 3 0\n", 3, &[3, 1, -2, 0, 3, -3, 0]),
        ("p cnf 3 2\n1 2 0\n2 1 0", 3, &[1, 2, 0, 2, 1, 0]),
        ("p cnf 2 1\n1\nc 2\n1\t2\r\n2 0", 2, &[1, 2, 0]),
        ("p cnf 640 1\n640 -640 -640 640 0", 640, &[640, -640, 0]),
    ] {
        let (a, rules) = read(file);
        let closed = list.iter().filter(|&&e| e == 0).count() as u64;
        assert_eq!((a.refusal, a.value), (0, [n, closed, list.len() as u64]), "{file:?}");
        assert_eq!(rules, list, "{file:?}");
        let mut short = vec![9; list.len() - 1];
        assert_eq!(refused(read_rules(file.as_bytes(), &mut short)), (15, list.len() as u64), "{file:?}");
        assert!(short.iter().all(|&e| e == 9));
    }
    for (file, refusal, place) in [
        ("p cnf 2 1\n1 1 01 0", 3, 14),
        ("p cnf 2 1\n1 1 3 0", 4, 14),
        ("p cnf 2 1\n3 3 0", 4, 10),
        ("p cnf 2 1\n1 1", 6, 13),
        ("p cnf 2 2\n1 1 0 2 2", 6, 19),
        ("p cnf 2 1\n1 1 0 1", 6, 16),
        ("p cnf 2 1\n1 1 0 -0", 3, 16),
    ] {
        assert_eq!(refused(read(file).0), (refusal, place), "{file:?}");
    }
}

/// "Entry counts are taken after dropping repeats": 7 is for the 31,001st entry that is not one.
#[test]
fn repeats_are_no_entries() {
    let open = format!("p cnf 9 7750\n{}1 2 3 4", "1 2 3 4 0\n".repeat(7_749));
    let place = open.len() as u64 + 1;
    for (rest, refusal, place) in [
        (" 0", 0, 0),
        (" 1 0", 0, 0),
        (" 4 3 2 1 1 1 0", 0, 0),
        (" 5 0", 7, place),
        (" -1 0", 7, place),
        (" 10 0", 7, place),
        (" 1 4 5 0", 7, place + 4),
        (" 1 10 0", 7, place + 2),
        (" 1 05 0", 3, place + 2),
        (" 1", 6, place + 1),
        (" 1 0 1", 6, place + 4),
    ] {
        let (a, rules) = read(&(open.clone() + rest));
        assert_eq!(refused(a), (refusal, place), "{rest:?}");
        assert_eq!(rules.len(), if refusal == 0 { 38_750 } else { 0 });
    }
    let (a, _) = read(&format!("p cnf 9 7751\n{}5 0", "1 1 2 2 0\n".repeat(7_750)));
    assert_eq!((a.refusal, a.value), (0, [9, 7_751, 23_252]));
}

/// "Lent lists may hold opposite entries but not equal ones."
#[test]
fn lent_lists_without_equal_entries() {
    for (list, place) in [
        (&[1, -1, 0][..], None),
        (&[-2, 1, 2, -1, 0, 2, -2, 0], None),
        (&[1, 2, 0, 1, 2, 0], None),
        (&[1, 1, 0], Some(1)),
        (&[-2, 1, 2, -2, 0], Some(3)),
        (&[1, -1, 0, 2, 1, 2, 1, 0], Some(5)),
        (&[1, 1], Some(1)),
        (&[1, -1], Some(2)),
    ] {
        let expected = place.map_or((0, 0), |at| (13, at));
        let (row, choice) = (&[0, 1][..], &mut [9; 2][..]);
        assert_eq!(refused(check(2, list, row, &[0, 1])), expected);
        assert_eq!(refused(search(2, list, row, 1, choice)), expected);
        assert_eq!(refused(plain(2, list, choice)), expected);
        assert_eq!(refused(nearest(2, list, row, choice)), expected);
        assert_eq!(refused(forks(2, list, row, 1)), expected);
        assert_eq!(refused(write_rules(2, list, &mut [9; 200])), expected);
        assert_eq!(refused(rewrite(2, list, row, 1, &mut [9; 200])), expected);
        assert_eq!(refused(write_opb(2, list, row, 1, &mut [9; 200])), expected);
    }
}

/// "such a rule is always met", and in step 4 it is among "open rules holding v and -v", for both senses: settings 1
/// and 2 score 2 times 4 to the power 8, and setting 3 scores 7 times.
#[test]
fn opposite_entries_in_the_walk() {
    let rules = [1, 2, 0, 3, -3, 0];
    let mut c = [9; 3];
    assert_eq!(plain(3, &rules, &mut c).verdict, 1);
    assert_eq!(c, [1, 0, 1]);
    assert_eq!(forks(3, &rules, &[2; 3], 0).value[0], 2);
    // as the only rule it needs no fork, and breaks no wish
    for row in [[0], [1]] {
        assert_eq!(nearest(1, &[1, -1, 0], &row, &mut c[..1]), Answer { verdict: 1, ..Answer::default() });
        assert_eq!(c[..1], row);
        assert_eq!(forks(1, &[-1, 1, 0], &row, 0), Answer { verdict: 1, ..Answer::default() });
    }
}

#[test]
fn example_of_rewriting() {
    let (a, rules) = read("p cnf 2 1\n1 2 0\n");
    let mut row = [9; 256];
    let w = read_wishes(b"    2    2    1\n    1    0\n    2    0\n", &mut row);
    assert_eq!(w.value, [2, 2, 1]);
    let mut list = vec![0; 38_914];
    let r = rewrite(a.value[0], &rules, &row[..2], w.value[2], &mut list);
    let mut file = vec![0; 200];
    let f = write_rules(r.value[0], &list[..r.value[1] as usize], &mut file);
    let printed = "p cnf 4 8\n1 2 0\n1 2 -3 0\n-2 3 0\n1 -4 0\n-1 3 0\n2 -4 0\n-1 -2 4 0\n-4 0\n";
    assert_eq!(&file[..f.value[0] as usize], printed.as_bytes());
}

#[test]
fn sizes_of_rewriting() {
    for (wishes, settings, rules, length) in [(64, 384, 4_800, 18_432), (3, 5, 16, 54), (1, 0, 0, 0), (0, 0, 0, 0)] {
        let mut row = vec![1; wishes];
        row.resize(256, 2);
        let (total, list) = totalizer::rewrite(256, &[], &row, 64);
        let closed = list.iter().filter(|&&e| e == 0).count();
        assert_eq!((total - 256, closed), (settings, rules));
        assert_eq!(list.len(), length);
        let (_, limited) = totalizer::rewrite(256, &[], &row, 0);
        assert_eq!(limited.len(), length + 2 * wishes.min(1));
    }
}

/// A small generator with a fixed start, so that a failure comes again.
struct Random(u64);

impl Random {
    fn below(&mut self, bound: u64) -> u64 {
        self.0 = self.0.wrapping_mul(6364136223846793005).wrapping_add(1442695040888963407);
        (self.0 >> 33) % bound
    }

    fn book(&mut self, n: u64) -> Vec<i32> {
        let rules = self.below(3 * n + 3);
        self.rules(n, rules, 1)
    }

    /// Without rules of one entry, so that many choices are permitted.
    fn loose_book(&mut self, n: u64) -> Vec<i32> {
        let rules = 1 + self.below(3 * n);
        self.rules(n, rules, 2)
    }

    /// So many rules, of three entries more than the fewest at most; every other list may hold opposite ones in a rule.
    fn rules(&mut self, n: u64, rules: u64, fewest: u64) -> Vec<i32> {
        let (mut list, opposites) = (Vec::new(), self.below(2) == 0);
        for _ in 0..rules {
            let mut rule: Vec<i32> = Vec::new();
            for _ in 0..fewest + self.below(4) {
                let v = 1 + self.below(n) as i32;
                let entry = if self.below(2) == 0 { v } else { -v };
                if !rule.contains(&entry) && (opposites || !rule.contains(&-entry)) {
                    rule.push(entry);
                }
            }
            list.extend(rule);
            list.push(0);
        }
        list
    }

    /// The list with entries of a rule again, anywhere behind their first place in it.
    fn repeated(&mut self, list: &[i32]) -> Vec<i32> {
        let (mut repeated, mut start) = (Vec::new(), 0);
        for &e in list {
            while start < repeated.len() && self.below(2) == 0 {
                repeated.push(repeated[start + self.below((repeated.len() - start) as u64) as usize]);
            }
            repeated.push(e);
            start = if e == 0 { repeated.len() } else { start };
        }
        repeated
    }

    fn row(&mut self, n: u64) -> Vec<u8> {
        (0..n).map(|_| self.below(3) as u8).collect()
    }
}

#[test]
fn searches_by_brute_force() {
    let mut random = Random(1);
    for _ in 0..3_000 {
        let n = 1 + random.below(7);
        let (rules, row) = (random.book(n), random.row(n));
        let least = choices(n as usize).filter(|c| met(&rules, c)).map(|c| broken(&row, &c)).min();
        for d in 0..=n {
            let mut c = vec![9; n as usize];
            let a = search(n, &rules, &row, d, &mut c);
            assert_eq!(a.verdict == 1, least.is_some_and(|b| b <= d));
            if a.verdict == 1 {
                assert!(met(&rules, &c) && broken(&row, &c) == a.value[0] && a.value[0] <= d);
                assert_eq!(check(n, &rules, &row, &c), a);
            } else {
                assert!(c.iter().all(|&b| b == 9));
            }
        }
        let mut c = vec![9; n as usize];
        let a = nearest(n, &rules, &row, &mut c);
        assert_eq!((a.verdict == 1).then_some(a.value[0]), least);
        assert_eq!(plain(n, &rules, &mut c).verdict == 1, least.is_some());
    }
}

/// Document 02, L5: "Nearest now returns the first nearest choice, off before on, compared from setting 1 upward. .. The
/// limited search keeps its freedom."
#[test]
fn first_nearest_choices() {
    for (rules, row, count, choice) in [
        (&[1, 2, 0][..], &[0, 0][..], 1, &[0, 1][..]),
        (&[1, 2, 0], &[2, 2], 0, &[0, 1]),
        (&[1, 2, 0], &[1, 2], 0, &[1, 0]),
        (&[-1, -2, 0], &[1, 1], 1, &[0, 1]),
        (&[1, 2, 0, -1, 3, 0, -2, 3, 0], &[2, 2, 2], 0, &[0, 1, 1]),
        (&[1, 2, 3, 0, -3, 0], &[0, 0, 1], 2, &[0, 1, 0]),
        // by setting 1 first, whatever the later ones are: 0 1 1 1 is before 1 0 0 0
        (&[1, 2, 0, 1, 3, 0, 1, 4, 0], &[2, 2, 2, 2], 0, &[0, 1, 1, 1]),
        // of choices that are not nearest an earlier one does not count
        (&[1, 2, 0, 1, 3, 0, 1, 4, 0], &[0, 0, 0, 0], 1, &[1, 0, 0, 0]),
        (&[], &[2, 0, 1, 2], 0, &[0, 0, 1, 0]),
    ] {
        let mut c = vec![9; row.len()];
        let a = nearest(row.len() as u64, rules, row, &mut c);
        assert_eq!(a, Answer { verdict: 1, value: [count, 0, 0], ..Answer::default() });
        assert_eq!(c, choice);
    }
    // the walk tries on first, and against the wish first
    for (row, d) in [([0, 0], 1), ([2, 2], 0)] {
        let mut c = [9; 2];
        assert_eq!(search(2, &[1, 2, 0], &row, d, &mut c).verdict, 1);
        assert_eq!(c, [1, 0]);
    }
}

/// The order of all choices, and the two ways to the first of them.
#[test]
fn first_by_searches_and_of_all() {
    assert_eq!(choices(2).collect::<Vec<_>>(), [[0, 0], [0, 1], [1, 0], [1, 1]]);
    assert!(choices(9).zip(choices(9).skip(1)).all(|(one, next)| one < next));
    let (mut random, mut others) = (Random(6), 0);
    for run in 0..4_000 {
        let n = 1 + random.below(if run % 40 == 0 { 15 } else { 8 });
        let (rules, row) = (random.loose_book(n), random.row(n));
        let right = first::of_all(&rules, &row);
        assert_eq!(first::by_searches(&rules, &row, u64::MAX).unwrap().choice, right);
        others += (walk::least_within(&rules, &row, u64::MAX).unwrap().choice != right) as u64;
    }
    assert!(others > 400, "only {others} of the walk's choices are not the first");
}

/// On more settings than can be listed, by the second route: within one wish less there is no choice, and none within
/// the count has the settings below one that is on as the first has them, and this one off.
#[test]
fn first_on_larger_books() {
    let mut random = Random(7);
    for _ in 0..60 {
        let n = 20 + random.below(30);
        let rules = random.loose_book(n);
        let row: Vec<u8> = (0..n).map(|_| if random.below(2) == 0 { random.below(2) as u8 } else { 2 }).collect();
        let none_within = |d: u64, settled: &[i32]| {
            let (settings, list) = totalizer::rewrite(n, &[&rules[..], settled].concat(), &row, d);
            walk::search(&list, &vec![2; settings as usize], 0).choice.is_none()
        };
        let mut c = vec![9; n as usize];
        let a = nearest(n, &rules, &row, &mut c);
        if a.verdict == 0 {
            assert!(none_within(n, &[]));
            continue;
        }
        assert!(met(&rules, &c) && broken(&row, &c) == a.value[0]);
        assert!(a.value[0] == 0 || none_within(a.value[0] - 1, &[]));
        for at in (0..n as usize).filter(|&at| c[at] == 1) {
            let entry = |v: usize| if c[v] == 1 && v < at { v as i32 + 1 } else { -(v as i32 + 1) };
            let settled: Vec<i32> = (0..=at).flat_map(|v| [entry(v), 0]).collect();
            assert!(none_within(a.value[0], &settled));
        }
    }
}

/// "such a rule is always met": a book without its rules of both senses of a setting has the same answers.
#[test]
fn rules_of_both_senses_ask_nothing() {
    let (mut random, mut left_out) = (Random(5), 0);
    for _ in 0..2_000 {
        let n = 1 + random.below(7);
        let (rules, row) = (random.book(n), random.row(n));
        let kept: Vec<&[i32]> =
            walk::rules_of(&rules).into_iter().filter(|rule| !rule.iter().any(|e| rule.contains(&-e))).collect();
        let fewer: Vec<i32> = kept.iter().flat_map(|rule| [rule, &[0][..]].concat()).collect();
        left_out += walk::rules_of(&rules).len() - kept.len();
        assert!(choices(n as usize).all(|c| met(&rules, &c) == met(&fewer, &c)));
        let (mut c, mut other) = (vec![9; n as usize], vec![9; n as usize]);
        assert_eq!(nearest(n, &rules, &row, &mut c), nearest(n, &fewer, &row, &mut other));
        assert_eq!(c, other);
        assert_eq!(plain(n, &rules, &mut c), plain(n, &fewer, &mut other));
    }
    assert!(left_out > 1_000);
}

/// Gathers each group's outputs with its leaves, in the order in which settings are numbered.
fn groups(leaves: &[i32], next: &mut i32, found: &mut Vec<(Vec<i32>, i32)>) {
    if leaves.len() > 1 {
        let (left, right) = leaves.split_at(leaves.len() / 2);
        groups(left, next, found);
        groups(right, next, found);
        found.push((leaves.to_vec(), *next));
        *next += leaves.len() as i32;
    }
}

#[test]
fn completions_are_unique() {
    let mut random = Random(2);
    for _ in 0..300 {
        let n = 1 + random.below(4);
        let (rules, row, d) = (random.book(n), random.row(n), random.below(5));
        let (settings, list) = totalizer::rewrite(n, &rules, &row, d);
        let leaves: Vec<i32> = (0..n as usize)
            .filter(|&v| row[v] != 2)
            .map(|v| if row[v] == 0 { v as i32 + 1 } else { -(v as i32 + 1) })
            .collect();
        let mut found = Vec::new();
        groups(&leaves, &mut (n as i32 + 1), &mut found);
        for choice in choices(n as usize) {
            let mut expected = choice.clone();
            for (leaves, _) in &found {
                let holding =
                    leaves.iter().filter(|&&e| (choice[e.unsigned_abs() as usize - 1] == 1) == (e > 0)).count();
                expected.extend((1..=leaves.len()).map(|k| (holding >= k) as u8));
            }
            let all: Vec<Vec<u8>> = choices(settings as usize - n as usize)
                .map(|added| [choice.clone(), added].concat())
                .filter(|c| met(&list, c))
                .collect();
            let within = met(&rules, &choice) && broken(&row, &choice) <= d;
            assert_eq!(all, if within { vec![expected] } else { vec![] });
        }
    }
}

#[test]
fn files_come_back() {
    let mut random = Random(3);
    for _ in 0..2_000 {
        let n = 1 + random.below(12);
        let (rules, row, d) = (random.book(n), random.row(n), random.below(65));
        let text = rule_file::write(n, &rules);
        let book = rule_file::read(&text).unwrap();
        assert_eq!((book.n, &book.list), (n, &rules));
        assert_eq!(rule_file::write(book.n, &book.list), text);
        assert_eq!(rule_file::read(&rule_file::write(n, &random.repeated(&rules))).unwrap().list, rules);
        let text = wish_file::write(&row, d);
        assert_eq!(text.len() as u64, 16 + 11 * lent::wish_count(&row));
        assert_eq!(wish_file::read(&text).unwrap(), wish_file::Wishes { row, d });
    }
}

#[test]
fn longest_rule_file() {
    // 9,000 rules, 31,000 entries, each the longest there is
    let rule = |length: i32| (0..length).map(|k| -100 - k).chain([0]);
    let list: Vec<i32> = (0..9_000).flat_map(|r| rule(3 + (r < 4_000) as i32)).collect();
    assert_eq!(list.len(), 40_000);
    assert_eq!(rule_file::write(640, &list).len(), 173_015);
}

/// The file of the export to OPB, with all the room it may need.
fn exported(n: u64, rules: &[i32], row: &[u8], d: u64) -> String {
    let mut file = vec![9; 165_306];
    let a = write_opb(n, rules, row, d, &mut file);
    let (text, past) = file.split_at(a.value[0] as usize);
    assert_eq!(a, Answer { verdict: 1, value: [text.len() as u64, 0, 0], ..Answer::default() });
    assert!(past.iter().all(|&b| b == 9));
    String::from_utf8(text.to_vec()).unwrap()
}

/// Document 02, L2, on the example of document 01 and on lines of every kind.
#[test]
fn examples_of_opb() {
    for (n, rules, row, d, lines) in [
        (2, &[1, 2, 0][..], &[0, 0][..], 1, "+1 x1 +1 x2 >= 1 ;\n-1 x1 -1 x2 >= -1 ;\n"),
        (2, &[1, 2, 0], &[0, 0], 0, "+1 x1 +1 x2 >= 1 ;\n-1 x1 -1 x2 >= 0 ;\n"),
        (3, &[-3, 1, 0, -2, -1, -3, 0], &[2, 2, 2], 5, "-1 x3 +1 x1 >= 0 ;\n-1 x2 -1 x1 -1 x3 >= -2 ;\n"),
        (3, &[-2, 0], &[1, 2, 0], 0, "-1 x2 >= 0 ;\n+1 x1 -1 x3 >= 1 ;\n"),
        (4, &[], &[1, 0, 2, 1], 1, "+1 x1 -1 x2 +1 x4 >= 1 ;\n"),
        (4, &[], &[1, 0, 2, 1], 2, "+1 x1 -1 x2 +1 x4 >= 0 ;\n"),
        (4, &[], &[1, 0, 2, 1], 64, "+1 x1 -1 x2 +1 x4 >= -62 ;\n"),
        (1, &[], &[2], 64, ""),
        (2, &[1, -1, 0, -2, 1, 2, -1, 0], &[2, 2], 0, "+1 x1 -1 x1 >= 0 ;\n-1 x2 +1 x1 +1 x2 -1 x1 >= -1 ;\n"),
    ] {
        let header = format!("* #variable= {n} #constraint= {}\n", lines.matches('\n').count());
        assert_eq!(exported(n, rules, row, d), header + lines);
    }
}

/// "Errors: 16, a rule without entries, place the first such rule's closing zero, after 12 and before 15."
#[test]
fn refusals_of_opb() {
    let large = [1, 0].repeat(4_097);
    let larger = [&[0][..], &large].concat();
    for (n, rules, row, d, refusal, place) in [
        (2, &[0][..], &[0, 0][..], 0, 16, 0),
        (2, &[1, 0, 0], &[0, 0], 0, 16, 2),
        (2, &[1, 2, 0, 0, -1, 0, 0, 0], &[0, 0], 0, 16, 3),
        (2, &[1, 0], &[0, 0], 0, 15, 62),
        (2, &larger, &[0, 0], 0, 12, 0),
        (2, &larger, &[0], 0, 11, 0),
        (2, &larger, &[0, 3], 0, 13, 1),
        (2, &[0, 1], &[0, 3], 0, 13, 2),
        (2, &[0, 1], &[0, 3], 65, 14, 0),
        (0, &[0, 1], &[0, 3], 0, 14, 0),
    ] {
        let mut file = [9; 61];
        assert_eq!(refused(write_opb(n, rules, row, d, &mut file)), (refusal, place));
        assert_eq!(file, [9; 61]);
    }
}

/// "A choice satisfies the lines exactly when it meets the rules within d."
#[test]
fn opb_by_brute_force() {
    let mut random = Random(4);
    for _ in 0..3_000 {
        let n = 1 + random.below(4);
        let (rules, row) = (random.book(n), random.row(n));
        for d in 0..=n + 1 {
            let (settings, lines) = opb::read(exported(n, &rules, &row, d).as_bytes()).unwrap();
            assert_eq!(settings as u64, n);
            for choice in choices(n as usize) {
                let within = met(&rules, &choice) && broken(&row, &choice) <= d;
                assert_eq!(lines.iter().all(|line| line.satisfied(&choice)), within);
            }
        }
    }
}

#[test]
fn longest_opb_file() {
    let list = opb::longest_list();
    assert_eq!(list.len(), 16_384 + 4_096);
    let mut row = vec![2; 192];
    row.resize(256, 0);
    assert_eq!(exported(256, &list, &row, 64).len(), 165_306);
}
