//! How fast a rule file is read, by its bytes.

use reference::rule_file;

/// A name, and a file that reading accepts.
type File = (String, Vec<u8>);

/// The longest list there may be: 9,000 rules with 31,000 entries.
fn longest() -> Vec<i32> {
    (0..9_000).flat_map(|r| (0..3 + (r < 4_000) as i32).map(|k| k - 640).chain([0])).collect()
}

/// The same file with a heading before each rule.
fn under_headings(file: &[u8]) -> Vec<u8> {
    let mut lines = file.split_inclusive(|&b| b == b'\n');
    let mut text = lines.next().unwrap().to_vec();
    for (at, line) in lines.enumerate() {
        text.extend(format!("c rule {} of this model, and what it is for\n", at + 1).bytes());
        text.extend(line);
    }
    text
}

/// One rule, and so many bytes in front of it.
fn behind(gap: impl Fn(usize) -> u8, bytes: usize) -> Vec<u8> {
    let gap = (1..bytes).map(gap).chain([b'\n']);
    b"p cnf 1 1\n".iter().copied().chain(gap).chain(*b"1 0\n").collect()
}

/// One rule of every entry there may be, and then the same entries over and over, so many bytes in all.
fn repeats(bytes: usize) -> Vec<u8> {
    let entries = (1..=640).flat_map(|v| [v, -v]).cycle();
    let mut text = b"p cnf 640 1\n".to_vec();
    for entry in entries {
        if text.len() >= bytes {
            break;
        }
        text.extend(format!("{entry} ").bytes());
    }
    text.extend(b"0\n");
    text
}

pub fn files() -> Vec<File> {
    let list = longest();
    let plain = rule_file::write(640, &list);
    let mut files = vec![
        ("9,000 rules, 31,000 entries".to_string(), plain.clone()),
        ("the same, each rule under a heading".to_string(), under_headings(&plain)),
    ];
    for megabytes in [1, 4, 16] {
        let bytes = megabytes * 1_000_000;
        files.push((
            format!("comment lines of 40 bytes, {megabytes} MB"),
            behind(|k| if k % 40 == 0 { b'\n' } else { b'c' }, bytes),
        ));
        files.push((format!("one comment line, {megabytes} MB"), behind(|_| b'c', bytes)));
        files.push((format!("blanks, {megabytes} MB"), behind(|_| b' ', bytes)));
        files.push((format!("one rule of 1,280 entries and their repeats, {megabytes} MB"), repeats(bytes)));
    }
    files
}
