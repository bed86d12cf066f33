//! The wish search, step for step as document 01 has it, with a stack of its own in place of recursion.

use crate::lent::wish_count;

pub struct Outcome {
    pub choice: Option<Vec<u8>>,
    /// times step 5 was entered
    pub forks: u64,
    /// most forks on one path
    pub deepest: usize,
}

pub fn search(list: &[i32], row: &[u8], d: u64) -> Outcome {
    search_within(list, row, d, u64::MAX).unwrap()
}

/// The search, unless it makes more than `most` forks: for a test or a timing to pass over a book that is
/// out of the walk's reach.
pub fn search_within(list: &[i32], row: &[u8], d: u64, most: u64) -> Option<Outcome> {
    Walk::new(list, row, d).run(most)
}

/// The first limit at which the walk finds, and the choice that it finds there, on the same terms. No choice breaks more
/// wishes than there are.
pub fn least_within(list: &[i32], row: &[u8], most: u64) -> Option<Outcome> {
    let (mut forks, mut deepest) = (0, 0);
    for d in 0..=wish_count(row) {
        let outcome = search_within(list, row, d, most - forks)?;
        forks += outcome.forks;
        deepest = deepest.max(outcome.deepest);
        if outcome.choice.is_some() {
            return Some(Outcome { forks, deepest, ..outcome });
        }
    }
    Some(Outcome { choice: None, forks, deepest })
}

/// Whether a choice meets all rules.
pub fn met(list: &[i32], choice: &[u8]) -> bool {
    rules_of(list).iter().all(|rule| rule.iter().any(|&e| choice[at(e)] == wanted(e)))
}

/// The wishes that a choice breaks.
pub fn broken(row: &[u8], choice: &[u8]) -> u64 {
    row.iter().zip(choice).filter(|(&w, &c)| w != 2 && w != c).count() as u64
}

/// The entries of each rule of a closed list.
pub fn rules_of(list: &[i32]) -> Vec<&[i32]> {
    let mut rules: Vec<&[i32]> = list.split(|&e| e == 0).collect();
    rules.pop(); // what follows the last closing zero
    rules
}

/// The index of an entry's setting.
fn at(entry: i32) -> usize {
    entry.unsigned_abs() as usize - 1
}

/// The value with which an entry holds.
fn wanted(entry: i32) -> u8 {
    (entry > 0) as u8
}

pub const UNSETTLED: u8 = 2;
const FREE: u8 = 2;

enum State {
    DeadEnd,
    Answer(Vec<u8>),
    Fork { setting: usize, first: u8 },
}

struct Fork {
    setting: usize,
    other: Option<u8>,
    settled: usize,
}

pub struct Walk<'a> {
    rules: Vec<&'a [i32]>,
    row: &'a [u8],
    d: u64,
    pub value: Vec<u8>,
    /// settings in the order in which they were settled
    pub trail: Vec<usize>,
    broken: u64,
}

impl<'a> Walk<'a> {
    pub fn new(list: &'a [i32], row: &'a [u8], d: u64) -> Self {
        Walk { rules: rules_of(list), row, d, value: vec![UNSETTLED; row.len()], trail: Vec::new(), broken: 0 }
    }

    /// From the state at hand on, which the caller can come back to by `undo`.
    pub fn run(&mut self, most: u64) -> Option<Outcome> {
        let mut path: Vec<Fork> = Vec::new();
        let (mut forks, mut deepest) = (0, 0);
        loop {
            match self.try_state() {
                State::Answer(choice) => return Some(Outcome { choice: Some(choice), forks, deepest }),
                State::Fork { setting, first } => {
                    if forks == most {
                        return None;
                    }
                    forks += 1;
                    path.push(Fork { setting, other: Some(1 - first), settled: self.trail.len() });
                    deepest = deepest.max(path.len());
                    self.assign(setting, first);
                }
                State::DeadEnd => loop {
                    let Some(fork) = path.last_mut() else {
                        return Some(Outcome { choice: None, forks, deepest });
                    };
                    self.undo(fork.settled);
                    match fork.other.take() {
                        Some(value) => {
                            self.assign(fork.setting, value);
                            break;
                        }
                        None => path.pop(),
                    };
                },
            }
        }
    }

    pub fn assign(&mut self, setting: usize, value: u8) {
        self.value[setting] = value;
        self.trail.push(setting);
        self.broken += self.breaks(setting, value) as u64;
    }

    pub fn undo(&mut self, settled: usize) {
        for setting in self.trail.split_off(settled) {
            self.broken -= self.breaks(setting, self.value[setting]) as u64;
            self.value[setting] = UNSETTLED;
        }
    }

    fn breaks(&self, setting: usize, value: u8) -> bool {
        self.row[setting] != FREE && self.row[setting] != value
    }

    fn open(&self, rule: &[i32]) -> bool {
        rule.iter().all(|&e| self.value[at(e)] != wanted(e))
    }

    fn unsettled<'r>(&'r self, rule: &'r [i32]) -> impl Iterator<Item = i32> + 'r {
        rule.iter().copied().filter(|&e| self.value[at(e)] == UNSETTLED)
    }

    /// Whether every unsettled entry goes against a wish.
    fn opposed(&self, rule: &[i32]) -> bool {
        self.unsettled(rule).all(|e| self.breaks(at(e), wanted(e)))
    }

    /// Steps 1 to 4.
    fn try_state(&mut self) -> State {
        if !self.settle() {
            return State::DeadEnd;
        }
        let completed = self.complete();
        if self.rules.iter().all(|rule| rule.iter().any(|&e| completed[at(e)] == wanted(e))) {
            return State::Answer(completed);
        }
        let open: Vec<&[i32]> = self.rules.iter().copied().filter(|rule| self.open(rule)).collect();
        let opposed: Vec<&[i32]> = open.iter().copied().filter(|rule| self.opposed(rule)).collect();
        if self.broken == self.d && !opposed.is_empty() {
            return State::DeadEnd;
        }
        let setting = self.pick(&open, &opposed);
        let first = if opposed.is_empty() { 1 } else { 1 - self.row[setting] };
        State::Fork { setting, first }
    }

    /// Step 1; false for a dead end.
    pub fn settle(&mut self) -> bool {
        'again: loop {
            if self.broken > self.d {
                return false;
            }
            for number in 0..self.rules.len() {
                let rule = self.rules[number];
                if !self.open(rule) {
                    continue;
                }
                let (first, second) = {
                    let mut entries = self.unsettled(rule);
                    (entries.next(), entries.next())
                };
                match (first, second) {
                    (None, _) => return false,
                    (Some(entry), None) => {
                        self.assign(at(entry), wanted(entry));
                        continue 'again;
                    }
                    _ => {}
                }
            }
            return true;
        }
    }

    /// Step 2.
    fn complete(&self) -> Vec<u8> {
        let filled = |(&value, &wish): (&u8, &u8)| match (value, wish) {
            (UNSETTLED, FREE) => 0,
            (UNSETTLED, wish) => wish,
            (value, _) => value,
        };
        self.value.iter().zip(self.row).map(filled).collect()
    }

    /// Step 4.
    fn pick(&self, open: &[&[i32]], opposed: &[&[i32]]) -> usize {
        let count = |rule: &[i32]| self.unsettled(rule).count();
        let fewest = opposed.iter().map(|rule| count(rule)).min();
        let mut candidate = vec![false; self.row.len()];
        let (mut p, mut q) = (vec![0u64; self.row.len()], vec![0u64; self.row.len()]);
        for rule in open {
            let k = count(rule);
            for e in self.unsettled(rule) {
                let side = if e > 0 { &mut p } else { &mut q };
                side[at(e)] += 4u64.pow(10 - k.min(10) as u32);
            }
        }
        let among: Vec<&[i32]> = match fewest {
            None => open.to_vec(),
            Some(k) => opposed.iter().copied().filter(|rule| count(rule) == k).collect(),
        };
        for rule in among {
            self.unsettled(rule).for_each(|e| candidate[at(e)] = true);
        }
        let score = |v: usize| 2 * p[v] + 2 * q[v] + 3 * p[v].min(q[v]);
        let mut best: Option<usize> = None;
        for v in (0..self.row.len()).filter(|&v| candidate[v]) {
            if best.map_or(true, |b| score(v) > score(b)) {
                best = Some(v);
            }
        }
        best.expect("an unmet completion leaves an open rule, and settling leaves it two unsettled entries")
    }
}
