//! Inputs from a fixed seed: books, rows, files, and the damage done to them.

use reference::walk::rules_of;
use std::collections::BTreeSet;

/// splitmix64
pub struct Random(pub u64);

impl Random {
    pub fn next(&mut self) -> u64 {
        self.0 = self.0.wrapping_add(0x9e37_79b9_7f4a_7c15);
        let mut z = self.0;
        z = (z ^ (z >> 30)).wrapping_mul(0xbf58_476d_1ce4_e5b9);
        z = (z ^ (z >> 27)).wrapping_mul(0x94d0_49bb_1331_11eb);
        z ^ (z >> 31)
    }

    pub fn below(&mut self, bound: usize) -> usize {
        (self.next() % bound as u64) as usize
    }

    /// Once in `times`.
    pub fn once_in(&mut self, times: usize) -> bool {
        self.below(times) == 0
    }

    pub fn of<T: Copy>(&mut self, values: &[T]) -> T {
        values[self.below(values.len())]
    }

    /// A rule of `length` entries with different settings.
    pub fn rule(&mut self, n: usize, length: usize) -> Vec<i32> {
        let mut rule: Vec<i32> = Vec::new();
        while rule.len() < length.min(n) {
            let v = 1 + self.below(n) as i32;
            if rule.iter().all(|e| e.abs() != v) {
                rule.push(if self.once_in(2) { v } else { -v });
            }
        }
        rule
    }

    /// A list of `rules` rules with `shortest` to `longest` entries.
    pub fn book(&mut self, n: usize, rules: usize, shortest: usize, longest: usize) -> Vec<i32> {
        let mut list = Vec::new();
        for _ in 0..rules {
            let length = shortest + self.below(longest - shortest + 1);
            list.extend(self.rule(n, length));
            list.push(0);
        }
        list
    }

    /// A list of `rules` rules in which few settings come often, so that entries meet their equals and opposites.
    pub fn loose_book(&mut self, n: usize, rules: usize, longest: usize) -> Vec<i32> {
        let few = 1 + self.below(6);
        let few = self.rule(n, few);
        let mut list = Vec::new();
        for _ in 0..rules {
            for _ in 0..self.below(longest + 1) {
                let entry = self.of(&few);
                list.push(if self.once_in(2) { entry } else { -entry });
            }
            list.push(0);
        }
        list
    }

    /// The list with the opposite of an entry in some of its rules, anywhere in the rule.
    pub fn oppose(&mut self, list: &[i32]) -> Vec<i32> {
        let mut opposed = Vec::new();
        for rule in rules_of(list) {
            let mut rule = rule.to_vec();
            while !rule.is_empty() && self.once_in(3) {
                let (opposite, at) = (-self.of(&rule), self.below(rule.len() + 1));
                if !rule.contains(&opposite) {
                    rule.insert(at, opposite);
                }
            }
            opposed.extend(rule);
            opposed.push(0);
        }
        opposed
    }

    /// A list that permits the same choices: its rules and the entries of each in another order, if `more` with rules
    /// beside them that ask nothing new. These are a rule once more, one with a further entry, or both senses of a
    /// setting.
    pub fn twin(&mut self, n: usize, list: &[i32], more: bool) -> Vec<i32> {
        let mut rules: Vec<Vec<i32>> = rules_of(list).into_iter().map(<[i32]>::to_vec).collect();
        for at in 0..if more { rules.len() } else { 0 } {
            let (mut again, entry) = (rules[at].clone(), self.rule(n, 1)[0]);
            match self.below(6) {
                0 => rules.push(again),
                1 if !again.contains(&entry) => {
                    again.push(entry);
                    rules.push(again)
                }
                2 => rules.push(vec![entry, -entry]),
                _ => {}
            }
        }
        self.shuffle(&mut rules);
        rules.iter_mut().for_each(|rule| self.shuffle(rule));
        rules.iter().flat_map(|rule| [rule, &[0][..]].concat()).collect()
    }

    fn shuffle<T>(&mut self, values: &mut [T]) {
        for at in 1..values.len() {
            values.swap(at, self.below(at + 1));
        }
    }

    /// A row with `wishes` wishes.
    pub fn row(&mut self, n: usize, wishes: usize) -> Vec<u8> {
        let mut row = vec![2; n];
        let mut left = wishes.min(n);
        while left > 0 {
            let at = self.below(n);
            if row[at] == 2 {
                row[at] = self.below(2) as u8;
                left -= 1;
            }
        }
        row
    }

    pub fn choice(&mut self, n: usize) -> Vec<u8> {
        (0..n).map(|_| self.below(2) as u8).collect()
    }

    /// A rule file of the list that need not be in the writer's form.
    pub fn rule_file(&mut self, n: usize, list: &[i32]) -> Vec<u8> {
        let mut text = Vec::new();
        for _ in 0..self.below(3) {
            text.extend(self.comment());
        }
        let rules = list.iter().filter(|&&e| e == 0).count();
        text.extend(format!("p cnf {n} {rules}\n").bytes());
        self.blanks(&mut text, 0);
        for (at, entry) in list.iter().enumerate() {
            text.extend(entry.to_string().bytes());
            self.blanks(&mut text, (at + 1 < list.len()) as usize);
        }
        text
    }

    /// A comment line.
    pub fn comment(&mut self) -> Vec<u8> {
        let text: Vec<u8> = (0..self.below(6)).map(|_| self.of(b"c p0\r\tx\x00\xff")).collect();
        [b"c", &text[..], b"\n"].concat()
    }

    /// Blanks, and comment lines where a line begins.
    fn blanks(&mut self, text: &mut Vec<u8>, least: usize) {
        for _ in 0..least + if self.once_in(4) { self.below(3) } else { 0 } {
            text.push(self.of(b"  \n\t\r"));
        }
        while text.last() == Some(&b'\n') && self.once_in(3) {
            text.extend(self.comment());
        }
    }

    /// One to three faults in a rule file.
    pub fn damage_rule_file(&mut self, text: &mut Vec<u8>) {
        const TOKENS: [&str; 24] = [
            "-0", "00", "01", "0", "1", "-1", "2", "-2", "640", "-640", "641", "-641", "9000", "9001", "99999",
            "-99999", "100000", "-100000", "-", "--1", "+1", "1-1", "c", "1x",
        ];
        for _ in 0..1 + self.below(3) {
            let (from, to) = self.token(text);
            match self.below(6) {
                0 => self.damage_bytes(text, b"c p0123456789-\n\r\t\x0b\x0c+x"),
                1 => drop(text.splice(from..to, self.of(&TOKENS).bytes())),
                2 => drop(text.splice(from..from, [self.of(&TOKENS).as_bytes(), b" "].concat())),
                3 => drop(text.splice(from..from, [&text[from..to], b" "].concat())),
                4 => drop(text.drain(from..to)),
                _ => {
                    let (first, last) = self.token(text);
                    let moved = text[first..last].to_vec();
                    drop(text.splice(from..to, moved))
                }
            }
        }
    }

    /// Where some token stands.
    fn token(&mut self, text: &[u8]) -> (usize, usize) {
        let blank = |b: &u8| matches!(b, 9 | 10 | 13 | 32);
        let at = self.below(text.len() + 1);
        let from = text[..at].iter().rposition(blank).map_or(0, |k| k + 1);
        let to = text[from..].iter().position(blank).map_or(text.len(), |k| from + k);
        (from, to)
    }

    /// A byte changed, added or taken away, or the text cut.
    pub fn damage_bytes(&mut self, text: &mut Vec<u8>, alphabet: &[u8]) {
        let at = self.below(text.len() + 1);
        let byte = if self.once_in(4) { self.next() as u8 } else { self.of(alphabet) };
        match self.below(7) {
            0 | 1 if at < text.len() => text[at] = byte,
            2 if at < text.len() => text[at] ^= 1 << self.below(8),
            3 if at < text.len() => drop(text.remove(at)),
            4 => text.truncate(at),
            5 => text.push(byte),
            _ => text.insert(at, byte),
        }
    }

    /// A wish file whose numbers may be out of range.
    pub fn wish_file(&mut self) -> Vec<u8> {
        let n = self.of(&[1, 2, 3, 5, 9, 64, 65, 100, 256]);
        let m = self.below(n.min(64) + 1);
        let row = self.row(n, m);
        let mut numbers = vec![vec![n, m, self.of(&[0, 1, 2, 63, 64])]];
        numbers.extend((0..n).filter(|&at| row[at] != 2).map(|at| vec![at + 1, row[at] as usize]));
        if self.once_in(2) {
            let line = self.below(numbers.len().min(4));
            let column = self.below(numbers[line].len());
            numbers[line][column] = self.of(&[0, 1, 2, 3, 64, 65, 256, 257, 640, 99999]);
        }
        let line = |line: &Vec<usize>| line.iter().map(|v| format!("{v:5}")).collect::<String>() + "\n";
        numbers.iter().map(line).collect::<String>().into_bytes()
    }

    /// A fault in a sound list.
    pub fn damage_list(&mut self, n: usize, list: &mut Vec<i32>) {
        let n = n as i32;
        let values =
            [0, 1, -1, n, -n, n.wrapping_add(1), -n - 1, 640, 641, -641, i32::MAX, i32::MIN, i32::MIN + 1, 1 << 30];
        let at = self.below(list.len() + 1);
        match self.below(7) {
            0 | 1 if at < list.len() => list[at] = self.of(&values),
            2 if at < list.len() => drop(list.remove(at)),
            3 if at > 0 => list.insert(at, -list[at - 1]),
            4 if at > 0 => list.insert(at, list[at - 1 - self.below(at.min(3))]),
            5 => drop(list.pop()),
            _ => list.insert(at, self.of(&values)),
        }
    }

    /// A fault in a row or a choice.
    pub fn damage_row(&mut self, row: &mut Vec<u8>) {
        let at = self.below(row.len() + 1);
        match self.below(4) {
            0 if at < row.len() => row[at] = self.of(&[0, 1, 2, 3, 48, 49, 128, 255]),
            1 => drop(row.pop()),
            2 => row.insert(at, self.of(&[0, 1, 2, 3])),
            _ => row.push(self.of(&[0, 1, 2, 255])),
        }
    }
}

/// A book on which plain search makes n - 1 forks on its first path, as many as there can be, since a fork
/// settles one setting and needs two unsettled. While setting i is picked and put on, it is the only one in
/// four open rules of two entries.
pub fn ladder(n: usize) -> Vec<i32> {
    let n = n as i32;
    let mut list = Vec::new();
    for i in 1..n {
        for j in (i + 1)..=n.min(i + 4) {
            if i > 1 {
                list.push(-(i - 1));
            }
            list.extend([i, j, 0]);
        }
    }
    list
}

/// The same of the settings from 2 on, and setting 1 meets every rule: nearest has a choice by it at once, and comes to
/// the path when it asks for one without.
pub fn met_ladder(n: usize) -> Vec<i32> {
    let next = |&e: &i32| e + e.signum();
    let met = |rule: &[i32]| [1].into_iter().chain(rule.iter().map(next)).chain([0]).collect::<Vec<_>>();
    rules_of(&ladder(n - 1)).into_iter().flat_map(met).collect()
}

/// The list without the entries that stand in their rule already.
pub fn without_repeats(list: &[i32]) -> Vec<i32> {
    let mut seen = BTreeSet::new();
    let first = |&&e: &&i32| {
        if e == 0 {
            seen.clear();
        }
        e == 0 || seen.insert(e)
    };
    list.iter().filter(first).copied().collect()
}

/// The list without the rules that hold both senses of a setting.
pub fn without_opposites(list: &[i32]) -> Vec<i32> {
    let kept = rules_of(list).into_iter().filter(|rule| rule.iter().all(|e| !rule.contains(&-e)));
    kept.flat_map(|rule| [rule, &[0]].concat()).collect()
}
