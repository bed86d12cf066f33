//! Rewriting into plain rules: a totalizer over the entries that break wishes.

/// The next new setting and the rules so far.
struct Made {
    settings: i32,
    list: Vec<i32>,
}

fn close(list: &mut Vec<i32>, entries: impl IntoIterator<Item = i32>) {
    list.extend(entries);
    list.push(0);
}

/// The outputs of a group, its rules added: left part, right part, itself.
fn group(leaves: &[i32], made: &mut Made) -> Vec<i32> {
    if leaves.len() <= 1 {
        return leaves.to_vec();
    }
    let (left, right) = leaves.split_at(leaves.len() / 2);
    let a = group(left, made);
    let b = group(right, made);
    let r: Vec<i32> = (1..=leaves.len() as i32).map(|k| made.settings + k).collect();
    made.settings += leaves.len() as i32;
    let (p, q) = (a.len(), b.len());
    for i in 0..=p {
        for j in 0..=q {
            // outputs are numbered from 1 in document 01, so a(i) is a[i - 1]
            if i + j > 0 {
                let ai = (i > 0).then(|| -a[i - 1]);
                let bj = (j > 0).then(|| -b[j - 1]);
                close(&mut made.list, ai.into_iter().chain(bj).chain([r[i + j - 1]]));
            }
            if i + j < p + q {
                close(&mut made.list, a.get(i).into_iter().chain(b.get(j)).copied().chain([-r[i + j]]));
            }
        }
    }
    r
}

/// The number of settings and the list.
pub fn rewrite(n: u64, rules: &[i32], row: &[u8], d: u64) -> (u64, Vec<i32>) {
    let setting = |at: usize| at as i32 + 1;
    let leaves: Vec<i32> = (0..row.len())
        .filter(|&at| row[at] != 2)
        .map(|at| if row[at] == 0 { setting(at) } else { -setting(at) })
        .collect();
    let mut made = Made { settings: n as i32, list: rules.to_vec() };
    let s = group(&leaves, &mut made);
    if let Some(&over) = s.get(d as usize) {
        close(&mut made.list, [-over]);
    }
    (made.settings as u64, made.list)
}
