//! The export to OPB (document 02, L2): a sum over the settings, on as 1 and off as 0, that is at least K, for each
//! rule and for the wishes.

use crate::walk::rules_of;

/// One line: its coefficients with their settings, and K.
#[derive(Debug, PartialEq, Eq)]
pub struct Constraint {
    pub terms: Vec<(i64, usize)>,
    pub k: i64,
}

impl Constraint {
    /// "`+1 xV` for each entry V, `-1 xV` for -V, in order, then `>= K ;`, K being 1 less the number of negative
    /// entries"
    fn of_rule(rule: &[i32]) -> Constraint {
        let terms = rule.iter().map(|&e| (e.signum() as i64, e.unsigned_abs() as usize)).collect();
        let negative = rule.iter().filter(|&&e| e < 0).count() as i64;
        Constraint { terms, k: 1 - negative }
    }

    /// "`+1 xV` for wished on and `-1 xV` for wished off, by rising setting, and K is the number wished on less d"
    fn of_wishes(row: &[u8], d: u64) -> Constraint {
        let wished = row.iter().enumerate().filter(|(_, &w)| w != 2);
        let terms = wished.map(|(at, &w)| (if w == 1 { 1 } else { -1 }, at + 1)).collect();
        let on = row.iter().filter(|&&w| w == 1).count() as i64;
        Constraint { terms, k: on - d as i64 }
    }

    /// "Single spaces divide all parts, and a line feed ends each line."
    fn line(&self) -> String {
        let terms: String = self.terms.iter().map(|(coefficient, v)| format!("{coefficient:+} x{v} ")).collect();
        format!("{terms}>= {} ;\n", self.k)
    }

    pub fn satisfied(&self, choice: &[u8]) -> bool {
        self.terms.iter().map(|&(coefficient, v)| coefficient * choice[v - 1] as i64).sum::<i64>() >= self.k
    }
}

pub fn write(n: u64, list: &[i32], row: &[u8], d: u64) -> Vec<u8> {
    let mut constraints: Vec<Constraint> = rules_of(list).into_iter().map(Constraint::of_rule).collect();
    // "If there are wishes a last line"
    if row.iter().any(|&w| w != 2) {
        constraints.push(Constraint::of_wishes(row, d));
    }
    let mut text = format!("* #variable= {n} #constraint= {}\n", constraints.len());
    text.extend(constraints.iter().map(Constraint::line));
    text.into_bytes()
}

/// The number of settings and the lines of a file, for tests; None unless every line is as `write` has it.
pub fn read(file: &[u8]) -> Option<(usize, Vec<Constraint>)> {
    let text = std::str::from_utf8(file).ok()?.strip_suffix('\n')?;
    let mut lines = text.split('\n');
    let (n, count) = lines.next()?.strip_prefix("* #variable= ")?.split_once(" #constraint= ")?;
    let constraints: Vec<Constraint> = lines.map(constraint).collect::<Option<_>>()?;
    (constraints.len().to_string() == count).then_some(())?;
    Some((n.parse().ok()?, constraints))
}

fn constraint(line: &str) -> Option<Constraint> {
    let (sum, k) = line.strip_suffix(" ;")?.split_once(" >= ")?;
    let words: Vec<&str> = sum.split(' ').collect();
    let term = |pair: &[&str]| match *pair {
        [coefficient, v] => Some((coefficient.parse().ok()?, v.strip_prefix('x')?.parse().ok()?)),
        _ => None,
    };
    let terms = words.chunks(2).map(term).collect::<Option<_>>()?;
    let read = Constraint { terms, k: k.parse().ok()? };
    (read.line() == format!("{line}\n")).then_some(read)
}

/// A list with the longest file: 4,096 rules and 16,384 entries, each the longest there is. A K of two places takes 2
/// negative entries, one of three takes 11: as many rules as can have 11, the others 2, and the two entries that are
/// left.
pub fn longest_list() -> Vec<i32> {
    let rule = |length: i32| (0..length).map(|k| -100 - k).chain([0]);
    let lengths = [vec![11; 910], vec![3; 2], vec![2; 3_184]].concat();
    lengths.into_iter().flat_map(rule).collect()
}
