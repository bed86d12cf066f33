//! The calls that read and write files.

use crate::both::Both;
use crate::random::{without_repeats, Random};
use calls::lent::{rule_file, ruled, wish_file, wished};
use calls::{PLAIN, READ_RULES, READ_WISHES, WRITE_RULES, WRITE_WISHES};

pub const GROUPS: &[crate::Group] = &[
    ("rule files: sound", 3_000, sound_rule_file),
    ("rule files: damaged", 30_000, damaged_rule_file),
    ("rule files: headers", 1, headers),
    ("rule files: every byte at every place", 1, every_byte),
    ("rule files: comments", 1_000, comments),
    ("rule files: megabytes of comments", 1, long_comments),
    ("rule files: repeats and opposites", 4_000, repeats),
    ("rule files: repeats and opposites, damaged", 10_000, damaged_repeats),
    ("rule files: repeats at the limits", 1, repeats_at_limits),
    ("rule files: megabytes of repeats", 1, many_repeats),
    ("rule files: random bytes", 20_000, random_bytes),
    ("rule files: limits", 1, limits),
    ("wish files: numbers", 20_000, wish_numbers),
    ("wish files: damaged", 20_000, damaged_wish_file),
    ("wish files: every byte at every place", 1, every_wish_byte),
    ("wish files: every length", 1, every_length),
];

/// Output lengths around the one needed.
pub fn rooms(random: &mut Random, needed: usize) -> [usize; 4] {
    [needed, needed.saturating_sub(1), needed + 1 + random.below(70), random.below(needed + 1)]
}

pub fn a_room(random: &mut Random, needed: usize) -> usize {
    let rooms = rooms(random, needed);
    random.of(&rooms)
}

/// Reads the file with a long buffer, and with others around the length needed; then writes what was read.
fn read_and_write(both: &mut Both, random: &mut Random, file: &[u8]) {
    let read = both.call(READ_RULES, &rule_file(file), file.len() + 3);
    if read.answer.refusal != 0 {
        both.call(READ_RULES, &rule_file(file), 0);
        return;
    }
    let length = read.answer.value[2] as usize;
    for room in rooms(random, length) {
        both.call(READ_RULES, &rule_file(file), room);
    }
    let list = &read.numbers[..length];
    let book = ruled(read.answer.value[0], list);
    let written = both.call(WRITE_RULES, &book, 5 * length + 15);
    let text = &written.bytes[..written.answer.value[0] as usize];
    for room in rooms(random, text.len()) {
        both.call(WRITE_RULES, &book, room);
    }
    let again = both.call(READ_RULES, &rule_file(text), length);
    let same = again.answer == read.answer && again.numbers[..length] == *list;
    both.hold(same, || "a written list does not come back".to_string());
}

fn sound_rule_file(both: &mut Both, random: &mut Random) {
    let n = random.of(&[1, 2, 3, 9, 10, 11, 99, 100, 640]);
    let rules = random.below(30);
    let longest = 1 + random.below(n.min(20));
    let book = random.book(n, rules, 0, longest);
    let file = random.rule_file(n, &book);
    read_and_write(both, random, &file);
}

fn damaged_rule_file(both: &mut Both, random: &mut Random) {
    let n = random.of(&[1, 2, 3, 10, 640]);
    let rules = random.below(6);
    let book = random.book(n, rules, 0, 4.min(n));
    let mut file = random.rule_file(n, &book);
    random.damage_rule_file(&mut file);
    read_and_write(both, random, &file);
}

fn headers(both: &mut Both, random: &mut Random) {
    let numbers = [
        "", "0", "1", "00", "01", "-1", "2", "640", "641", "9000", "9001", "12345", "99999", "123456", "1x", "+1", "1 ",
    ];
    let befores =
        ["", "c\n", "c", "c x", "c x\nc\n", "\n", " ", "c\n\n", "c\nx\n", "d\n", "p\n", "C\n", "\r\n", "c\r", "c\r\n"];
    for before in befores {
        for n in numbers {
            for c in numbers {
                for after in ["", "\n", " \n", "\r\n", "\n0", "\n1 0\n", "\n1 2 0 0"] {
                    read_and_write(both, random, format!("{before}p cnf {n} {c}{after}").as_bytes());
                }
            }
        }
    }
    for header in
        ["p", "p ", "p cnf", "p cnf ", "p  cnf 1 0\n", "p cnf  1 0\n", "p cnf 1  0\n", "p\tcnf 1 0\n", "p cnf\t1 0\n"]
    {
        read_and_write(both, random, header.as_bytes());
    }
    for header in [
        " p cnf 1 0\n",
        "P cnf 1 0\n",
        "p CNF 1 0\n",
        "p cnf 1 0 \n",
        "p cnf 1\n0\n",
        "p cnf 1 0 0\n",
        "p cnff 1 0\n",
        "pcnf 1 0\n",
    ] {
        read_and_write(both, random, header.as_bytes());
    }
}

/// Each byte value put over, and in before, each byte of a file.
fn bytes_everywhere(file: &[u8], mut judge: impl FnMut(&[u8])) {
    for at in 0..=file.len() {
        for byte in 0..=255 {
            let (before, after) = file.split_at(at);
            judge(&[before, &[byte], after].concat());
            if at < file.len() {
                judge(&[before, &[byte], &after[1..]].concat());
            }
        }
    }
}

fn every_byte(both: &mut Both, random: &mut Random) {
    bytes_everywhere(b"c x\np cnf 12 3\n1 -2 0\t0\r\n-12 3 0", |file| read_and_write(both, random, file));
    bytes_everywhere(b"p cnf 3 2\nc 0\n1\ncc\r-2 0\n-2 0\r\n3 0 \nc", |file| read_and_write(both, random, file));
    bytes_everywhere(b"p cnf 12 2\n1 -1 11 1 0\n-12 2 -12 -2 0\n", |file| read_and_write(both, random, file));
}

/// A comment put in at each place of a file. At a line's beginning it changes nothing that is read; without its line
/// feed the same holds at the file's end.
fn comments(both: &mut Both, random: &mut Random) {
    let n = random.of(&[1, 2, 3, 10, 640]);
    let rules = random.below(5);
    let book = random.book(n, rules, 0, 4.min(n));
    let file = random.rule_file(n, &book);
    let plain = both.call(READ_RULES, &rule_file(&file), file.len());
    for at in 0..=file.len() {
        let (before, after) = file.split_at(at);
        let comment = random.comment();
        let whole = [before, &comment, after].concat();
        let read = both.call(READ_RULES, &rule_file(&whole), file.len());
        if at == 0 || before.ends_with(b"\n") {
            both.hold(read == plain, || format!("{comment:?} at {at} alters what is read"));
        }
        both.call(READ_RULES, &rule_file(&[before, &comment[..comment.len() - 1], after].concat()), file.len());
    }
    if file.ends_with(b"\n") {
        let open = [&file[..], b"c the end"].concat();
        let read = both.call(READ_RULES, &rule_file(&open), file.len());
        both.hold(read == plain, || "an open comment at the end alters what is read".to_string());
    }
}

/// One long comment or many short ones, also inside an open rule, with and without a fault behind them; and comments
/// to the file's end, cut anywhere.
fn long_comments(both: &mut Both, random: &mut Random) {
    let long = [&vec![b'c'; 4_000_000][..], b"\n"].concat();
    let many = b"c 1 0\n".repeat(700_000);
    for gap in [&long, &many] {
        for rest in ["-1 0\n", "-1 0", "-1 x 0", "-1 2", ""] {
            let file = [b"p cnf 2 2\n", &gap[..], b"1\n", gap, b"2 0\n", gap, rest.as_bytes()].concat();
            both.call(READ_RULES, &rule_file(&file), 5);
            both.call(READ_RULES, &rule_file(&file), 4);
        }
    }
    both.call(READ_RULES, &rule_file(&[b"p cnf 2 0\n", &long[..long.len() - 1]].concat()), 0);
    let at = random.below(many.len());
    both.call(READ_RULES, &rule_file(&[b"p cnf 2 0\n", &many[..at]].concat()), 0);
}

/// The book of a file that may have equal and opposite entries in a rule.
fn loose_book(random: &mut Random) -> (usize, Vec<i32>) {
    let n = random.of(&[1, 2, 3, 9, 10, 100, 640]);
    let (rules, longest) = (random.below(12), random.below(16));
    (n, random.loose_book(n, rules, longest))
}

/// A file with repeats reads as one without them, whatever blanks and comments each has.
fn repeats(both: &mut Both, random: &mut Random) {
    let (n, list) = loose_book(random);
    let once = without_repeats(&list);
    let (file, twin) = (random.rule_file(n, &list), random.rule_file(n, &once));
    let read = both.call(READ_RULES, &rule_file(&file), once.len());
    both.hold(read.numbers == once, || format!("of {list:?} is read {:?}", read.numbers));
    let same = read == both.call(READ_RULES, &rule_file(&twin), once.len());
    both.hold(same, || format!("{list:?} and the same without repeats are read otherwise"));
    read_and_write(both, random, &file);
}

fn damaged_repeats(both: &mut Both, random: &mut Random) {
    let (n, list) = loose_book(random);
    let mut file = random.rule_file(n, &list);
    random.damage_rule_file(&mut file);
    read_and_write(both, random, &file);
}

/// A file of 31,000 entries whose last rule is then kept open: repeats, new entries and tokens that are at fault.
fn open_at_limit(both: &mut Both, random: &mut Random, file: &[u8], last: i32) {
    let open = file.strip_suffix(b"0\n").unwrap();
    for more in [
        format!("{last} 0"),
        format!("{last} {last} 0"),
        format!("{last}"),
        format!("{last} {} 0", -last),
        format!("{last} 600 0"),
        format!("{last} 0 {last}"),
        format!("{last} 0 0"),
        format!("{last} 641 0"),
        format!("{last} 0{last} 0"),
        "641 0".to_string(),
        "-0 0".to_string(),
        "300 -300 0".to_string(),
    ] {
        read_and_write(both, random, &[open, more.as_bytes()].concat());
    }
}

/// 31,000 entries in as many rules as there can be, and in rules of both senses of every setting; each file as it is,
/// and with the entries of each rule once more.
fn repeats_at_limits(both: &mut Both, random: &mut Random) {
    let short: Vec<i32> = (0..9_000).flat_map(|r| (0..3 + (r < 4_000) as i32).map(|k| k - 640).chain([0])).collect();
    let senses: Vec<i32> = (1..=640).flat_map(|v| [v, -v]).collect();
    let long = [&[&senses[..], &[0]].concat().repeat(24), &senses[..280], &[0]].concat();
    for list in [&short, &long] {
        let twice = |rule: &[i32]| [&rule[..rule.len() - 1], rule].concat();
        let doubled: Vec<i32> = list.split_inclusive(|&e| e == 0).flat_map(twice).collect();
        let rules = list.iter().filter(|&&e| e == 0).count();
        assert_eq!((list.len() - rules, without_repeats(&doubled) == *list), (31_000, true));
        for tokens in [list, &doubled] {
            let file = text(640, rules, tokens);
            read_and_write(both, random, &file);
            let read = both.call(READ_RULES, &rule_file(&file), list.len());
            both.hold(read.numbers == *list, || "repeats at the limit alter what is read".to_string());
            open_at_limit(both, random, &file, list[list.len() - 2]);
        }
    }
}

/// Megabytes of repeats in an open rule, with and without a fault behind them.
fn many_repeats(both: &mut Both, _: &mut Random) {
    for (gap, stored) in [("1 ".repeat(2_000_000), 2), ("-2 1 2 -1 ".repeat(400_000), 5)] {
        for rest in ["0\n", "0", "01 0", "3 0", "", "0 1"] {
            let file = format!("p cnf 2 1\n1 {gap}{rest}");
            let answer = both.call(READ_RULES, &rule_file(file.as_bytes()), stored).answer;
            both.hold((answer.refusal == 0) == ["0\n", "0"].contains(&rest), || format!("{rest:?} behind repeats"));
            both.call(READ_RULES, &rule_file(file.as_bytes()), stored - 1);
        }
    }
}

fn random_bytes(both: &mut Both, random: &mut Random) {
    let length = random.below(60);
    let any = random.once_in(3);
    let header = random.of(&["", "p cnf 3 2\n", "c\np cnf 9 4\n", "p cnf 640 9000\n"]);
    let tail: Vec<u8> =
        (0..length).map(|_| if any { random.next() as u8 } else { random.of(b"0123456789-   \n\r\tcp") }).collect();
    read_and_write(both, random, &[header.as_bytes(), &tail].concat());
}

/// The text of a list, with a header that need not fit it.
fn text(n: usize, c: usize, list: &[i32]) -> Vec<u8> {
    let written = reference::rule_file::write(0, list);
    let body = written.iter().position(|&b| b == b'\n').unwrap() + 1;
    [format!("p cnf {n} {c}\n").as_bytes(), &written[body..]].concat()
}

fn limits(both: &mut Both, random: &mut Random) {
    for (n, rules) in [(640, 0), (641, 0), (640, 9_000), (1, 9_000), (640, 9_001), (640, 99_999)] {
        for given in [rules.min(9_001), 8_999] {
            read_and_write(both, random, &text(n, rules, &vec![0; given]));
        }
    }
    // 31,000 entries in 9,000 rules: the longest list, the longest file
    let rule = |length: i32| (0..length).map(|k| -640 + k).chain([0]);
    let full: Vec<i32> = (0..9_000).flat_map(|r| rule(3 + (r < 4_000) as i32)).collect();
    assert_eq!(full.len(), 40_000);
    let file = text(640, 9_000, &full);
    read_and_write(both, random, &file);
    for more in ["0", "1", "641", "x", "-0", "c x"] {
        read_and_write(both, random, &[&file[..], more.as_bytes()].concat());
    }
    for cut in [1, 2, 3, 4] {
        read_and_write(both, random, &file[..file.len() - cut]);
    }
    // 31,000 entries and one more, which may have other faults too; the rule is still open or not
    for entries in [30_999, 31_000, 31_001] {
        for last in [vec![], vec![0], vec![700, 0], vec![5, 5, 0], vec![5, 0, 6, 0]] {
            let mut list: Vec<i32> =
                (1..=entries).flat_map(|k| if k % 500 == 0 { vec![500, 0] } else { vec![k % 500] }).collect();
            list.extend(last);
            let closed = list.iter().filter(|&&e| e == 0).count();
            for c in [closed, closed - 1, closed + 1] {
                let mut file = text(640, c, &list);
                read_and_write(both, random, &file);
                file.extend(random.of(&[&b"x"[..], b"-0", b"1", b"999", b"0"]));
                read_and_write(both, random, &file);
            }
            both.call(WRITE_RULES, &ruled(640, &list), 173_015);
            both.call(PLAIN, &ruled(640, &list), 640);
        }
    }
}

/// Reads a wish file with a long buffer and others; then writes what was read.
fn read_and_write_wishes(both: &mut Both, random: &mut Random, file: &[u8]) {
    let read = both.call(READ_WISHES, &wish_file(file), 300);
    if read.answer.refusal != 0 {
        both.call(READ_WISHES, &wish_file(file), 0);
        return;
    }
    let [n, _, d] = read.answer.value;
    for room in rooms(random, n as usize) {
        both.call(READ_WISHES, &wish_file(file), room);
    }
    let wishes = wished(n, &[], &read.bytes[..n as usize], d);
    for room in rooms(random, file.len()) {
        both.call(WRITE_WISHES, &wishes, room);
    }
    let text = both.call(WRITE_WISHES, &wishes, file.len()).bytes;
    both.hold(text == file, || "a wish file does not come back".to_string());
}

fn wish_numbers(both: &mut Both, random: &mut Random) {
    let file = random.wish_file();
    read_and_write_wishes(both, random, &file);
}

fn damaged_wish_file(both: &mut Both, random: &mut Random) {
    let mut file = random.wish_file();
    for _ in 0..1 + random.below(2) {
        random.damage_bytes(&mut file, b" 0123456789\n\r\t-+");
    }
    read_and_write_wishes(both, random, &file);
}

const WISHES: &[u8] = b"   12    3    2\n    1    0\n    9    1\n   12    0\n";

fn every_wish_byte(both: &mut Both, random: &mut Random) {
    bytes_everywhere(WISHES, |file| read_and_write_wishes(both, random, file));
}

fn every_length(both: &mut Both, random: &mut Random) {
    let mut row = vec![1; 64];
    row.resize(256, 2);
    for file in [WISHES, &reference::wish_file::write(&row, 64)] {
        for length in 0..=file.len() {
            read_and_write_wishes(both, random, &file[..length]);
        }
        for more in [&b"\n"[..], b"0", b"    1    0\n"] {
            read_and_write_wishes(both, random, &[file, more].concat());
        }
    }
}
