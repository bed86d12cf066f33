//! The ten calls, written from the text of document 01 and of the landed requests of document 02 alone, and from nothing
//! of the library, so that a comparison of the two can find a misreading in either. It is plain rather than quick.

pub mod first;
pub mod lent;
pub mod opb;
pub mod program;
pub mod rule_file;
pub mod totalizer;
pub mod walk;
pub mod wish_file;

use lent::Refusal;

/// The C interface's answer.
#[repr(C)]
#[derive(Clone, Copy, Debug, Default, PartialEq, Eq)]
pub struct Answer {
    pub refusal: u64,
    pub place: u64,
    pub verdict: u64,
    pub value: [u64; 3],
}

fn answer(verdict: bool, value: [u64; 3]) -> Answer {
    Answer { verdict: verdict as u64, value, ..Answer::default() }
}

/// A refusal is an answer too; nothing was written before it was found.
fn replied(result: Result<Answer, Refusal>) -> Answer {
    result.unwrap_or_else(|r| Answer { refusal: r.number, place: r.place, ..Answer::default() })
}

pub fn read_rules(file: &[u8], rules: &mut [i32]) -> Answer {
    replied((|| {
        let book = rule_file::read(file)?;
        lent::room(rules, book.list.len())?[..book.list.len()].copy_from_slice(&book.list);
        Ok(answer(true, [book.n, book.rules, book.list.len() as u64]))
    })())
}

pub fn write_rules(n: u64, rules: &[i32], file: &mut [u8]) -> Answer {
    replied((|| {
        lent::n_and_d(n, 0)?;
        lent::rules(n, rules)?;
        let text = rule_file::write(n, rules);
        lent::room(file, text.len())?[..text.len()].copy_from_slice(&text);
        Ok(answer(true, [text.len() as u64, 0, 0]))
    })())
}

pub fn read_wishes(file: &[u8], row: &mut [u8]) -> Answer {
    replied((|| {
        let wishes = wish_file::read(file)?;
        let n = wishes.row.len();
        lent::room(row, n)?[..n].copy_from_slice(&wishes.row);
        Ok(answer(true, [n as u64, lent::wish_count(&wishes.row), wishes.d]))
    })())
}

pub fn write_wishes(n: u64, row: &[u8], d: u64, file: &mut [u8]) -> Answer {
    replied((|| {
        lent::n_and_d(n, d)?;
        lent::row(row)?;
        lent::length(n, row)?;
        lent::small(n, &[])?;
        let text = wish_file::write(row, d);
        lent::room(file, text.len())?[..text.len()].copy_from_slice(&text);
        Ok(answer(true, [text.len() as u64, 0, 0]))
    })())
}

pub fn check(n: u64, rules: &[i32], row: &[u8], choice: &[u8]) -> Answer {
    replied((|| {
        lent::n_and_d(n, 0)?;
        lent::rules(n, rules)?;
        lent::row(row)?;
        lent::choice(choice)?;
        lent::length(n, row)?;
        lent::length(n, choice)?;
        lent::small(n, rules)?;
        Ok(answer(walk::met(rules, choice), [walk::broken(row, choice), 0, 0]))
    })())
}

/// What every call with rules and a wish row refuses before its output is looked at.
pub fn wished(n: u64, rules: &[i32], row: &[u8], d: u64) -> Result<(), Refusal> {
    lent::n_and_d(n, d)?;
    lent::rules(n, rules)?;
    lent::row(row)?;
    lent::length(n, row)?;
    lent::small(n, rules)
}

/// Writes the choice found, or nothing, and answers with the wishes that it breaks.
fn found(row: &[u8], result: Option<Vec<u8>>, choice: &mut [u8]) -> Answer {
    match result {
        None => answer(false, [0; 3]),
        Some(c) => {
            choice[..c.len()].copy_from_slice(&c);
            answer(true, [walk::broken(row, &c), 0, 0])
        }
    }
}

pub fn search(n: u64, rules: &[i32], row: &[u8], d: u64, choice: &mut [u8]) -> Answer {
    replied((|| {
        wished(n, rules, row, d)?;
        lent::room(choice, n as usize)?;
        Ok(found(row, walk::search(rules, row, d).choice, choice))
    })())
}

/// The forks that the wish search makes, whether it finds or not. Document 01 has no call for them; they are
/// counted as document 02 (L11) says: "A fork counts when step 5 is entered".
pub fn forks(n: u64, rules: &[i32], row: &[u8], d: u64) -> Answer {
    replied((|| {
        wished(n, rules, row, d)?;
        let outcome = walk::search(rules, row, d);
        Ok(answer(outcome.choice.is_some(), [outcome.forks, 0, 0]))
    })())
}

pub fn plain(n: u64, rules: &[i32], choice: &mut [u8]) -> Answer {
    replied((|| {
        lent::n_and_d(n, 0)?;
        lent::rules(n, rules)?;
        lent::room(choice, n as usize)?;
        let free = vec![2; n as usize];
        Ok(found(&free, walk::search(rules, &free, 0).choice, choice))
    })())
}

pub fn nearest(n: u64, rules: &[i32], row: &[u8], choice: &mut [u8]) -> Answer {
    replied((|| {
        wished(n, rules, row, 0)?;
        lent::room(choice, n as usize)?;
        Ok(found(row, first::nearest(rules, row), choice))
    })())
}

pub fn rewrite(n: u64, rules: &[i32], row: &[u8], d: u64, rewritten: &mut [i32]) -> Answer {
    replied((|| {
        wished(n, rules, row, d)?;
        let (settings, list) = totalizer::rewrite(n, rules, row, d);
        lent::room(rewritten, list.len())?[..list.len()].copy_from_slice(&list);
        Ok(answer(true, [settings, list.len() as u64, 0]))
    })())
}

/// What the export to OPB refuses before its output is looked at: 16 comes "after 12 and before 15".
pub fn exported(n: u64, rules: &[i32], row: &[u8], d: u64) -> Result<(), Refusal> {
    wished(n, rules, row, d)?;
    lent::entries(rules)
}

pub fn write_opb(n: u64, rules: &[i32], row: &[u8], d: u64, file: &mut [u8]) -> Answer {
    replied((|| {
        exported(n, rules, row, d)?;
        let text = opb::write(n, rules, row, d);
        lent::room(file, text.len())?[..text.len()].copy_from_slice(&text);
        Ok(answer(true, [text.len() as u64, 0, 0]))
    })())
}
