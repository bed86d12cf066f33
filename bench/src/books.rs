//! Rule books with wishes, from fixed seeds.

pub struct Book {
    pub list: Vec<i32>,
    pub row: Vec<u8>,
}

/// splitmix64
struct Random(u64);

impl Random {
    fn below(&mut self, bound: usize) -> usize {
        self.0 = self.0.wrapping_add(0x9e37_79b9_7f4a_7c15);
        let mut z = self.0;
        z = (z ^ (z >> 30)).wrapping_mul(0xbf58_476d_1ce4_e5b9);
        z = (z ^ (z >> 27)).wrapping_mul(0x94d0_49bb_1331_11eb);
        ((z ^ (z >> 31)) % bound as u64) as usize
    }

    fn percent(&mut self, share: usize) -> bool {
        self.below(100) < share
    }

    /// `count` different numbers from 1 to n.
    fn distinct(&mut self, n: usize, count: usize) -> Vec<i32> {
        let mut drawn = Vec::new();
        while drawn.len() < count.min(n) {
            let v = 1 + self.below(n) as i32;
            if !drawn.contains(&v) {
                drawn.push(v);
            }
        }
        drawn
    }
}

/// Rules of three entries with random senses, and random wishes.
pub fn random(seed: u64, n: usize, rules: usize, wishes: usize) -> Book {
    let mut random = Random(seed);
    let mut list = Vec::new();
    for _ in 0..rules {
        for v in random.distinct(n, 3) {
            list.push(if random.percent(50) { v } else { -v });
        }
        list.push(0);
    }
    let mut row = vec![2; n];
    for v in random.distinct(n, wishes) {
        row[v as usize - 1] = random.percent(50) as u8;
    }
    Book { list, row }
}

/// A book as a maker of terminals writes one: settings come in groups (a paper width, a language, a receipt's
/// lines) of which at most one may be on, some of which need one; between groups one setting needs another, or
/// one of several, or shuts another out. One choice is permitted for certain, and a stallholder wishes what
/// that choice has, but for one wish in five.
pub fn terminal(seed: u64, n: usize, rules: usize, wishes: usize) -> Book {
    let mut random = Random(seed);
    let mut permitted = vec![false; n + 1];
    let mut book: Vec<Vec<i32>> = Vec::new();
    let mut first = 1;
    while first <= n {
        let group: Vec<i32> = (first..=n.min(first + 1 + random.below(6))).map(|v| v as i32).collect();
        first += group.len();
        match random.below(4) {
            0 => group.iter().for_each(|&v| permitted[v as usize] = random.percent(40)),
            kind => {
                for (k, a) in group.iter().enumerate() {
                    book.extend(group[k + 1..].iter().map(|b| vec![-a, -b]));
                }
                if kind == 1 {
                    book.push(group.clone());
                }
                if kind == 1 || random.percent(60) {
                    permitted[group[random.below(group.len())] as usize] = true;
                }
            }
        }
    }
    while book.len() < rules {
        let v = random.distinct(n, 5);
        let rule = match random.below(10) {
            0..=2 => vec![-v[0], v[1]],
            3..=5 => vec![-v[0], v[1], v[2], v[3]],
            6..=7 => vec![-v[0], -v[1]],
            8 => vec![-v[0], -v[1], v[2]],
            _ => v[..3 + random.below(3)].to_vec(),
        };
        if rule.iter().any(|&e| permitted[e.unsigned_abs() as usize] == (e > 0)) {
            book.push(rule);
        }
    }
    let mut row = vec![2; n];
    for v in random.distinct(n, wishes) {
        row[v as usize - 1] = (permitted[v as usize] != random.percent(20)) as u8;
    }
    Book { list: book.iter().flat_map(|rule| rule.iter().copied().chain([0])).collect(), row }
}
