//! The answer to a case: what the call says, what holds of a choice that was found, and what the lent buffer holds.

use crate::line;
use calls::{Answer, Buffer, Call, Lent, Says, Values, Writes, FORKS, PUBLIC};
use reference::walk;

/// The longest buffer of which every element is shown.
pub const SHORT: usize = 64;

pub fn answer(line: &str, short: usize) -> String {
    called(line, short).unwrap_or_else(|| "bad case".to_string())
}

fn called(line: &str, short: usize) -> Option<String> {
    let (name, mut words) = line::start(line);
    let call = PUBLIC.iter().chain([&FORKS]).find(|call| call.name == name)?;
    let mut values = Values::default();
    for &kind in call.lent {
        values.put(kind, words.value(kind)?);
    }
    let mut buffer = call.writes.map_or(Some(Buffer::default()), |writes| words.buffer(writes))?;
    words.end()?;
    let lent = values.lend();
    let answer = (call.reference)(&lent, buffer.lend());
    sure(call.says, answer, &lent, &buffer.bytes);
    let words = if answer.refusal > 0 { refused(answer) } else { said(call.says, answer) };
    Some(words + &left(call, answer, &lent, &buffer, short))
}

fn refused(a: Answer) -> String {
    format!("refused {} at {}", a.refusal, a.place)
}

fn said(says: Says, a: Answer) -> String {
    let [first, second, third] = a.value;
    match (says, a.verdict) {
        (Says::Read, _) => format!("read {first} {second} {third}"),
        (Says::Written, _) => format!("written {first}"),
        (Says::Rewritten, _) => format!(" {first} rewritten to {second}"),
        (Says::Met, 1) => format!("met {first}"),
        (Says::Met, _) => format!("unmet {first}"),
        (Says::Forks, 1) => format!("found after forks: {first}"),
        (Says::Forks, _) => format!("none after forks: {first}"),
        (Says::Within, 1) => "found within the limit".to_string(),
        (Says::Any, 1) => format!("found {first}\nmet"),
        (Says::First, 1) => format!("found {first}\nmet {first}"),
        (Says::Within | Says::Any | Says::First, _) => "none".to_string(),
    }
}

/// A choice that the reference finds is what it says.
fn sure(says: Says, a: Answer, lent: &Lent, buffer: &[u8]) {
    let finds = matches!(says, Says::Within | Says::Any | Says::First);
    if finds && a.verdict == 1 {
        let choice = &buffer[..lent.n as usize];
        let counted = walk::broken(lent.row, choice) == a.value[0];
        assert!(walk::met(lent.rules, choice) && counted && (says != Says::Within || a.value[0] <= lent.d));
    }
}

/// The line of the buffer, without the first bytes of a choice that was found where the documents leave open which it
/// is: of such a choice the answer says what holds of it.
fn left(call: &Call, a: Answer, lent: &Lent, buffer: &Buffer, short: usize) -> String {
    let open = matches!(call.says, Says::Within | Says::Any) && a.verdict == 1;
    match call.writes {
        None => String::new(),
        Some(Writes::List) => held(&buffer.numbers, short),
        Some(_) if open => held(&buffer.bytes[lent.n as usize..], short),
        Some(_) => held(&buffer.bytes, short),
    }
}

/// Every element of a short buffer, the length and a sum of a long one. A negative element counts by its
/// magnitude from 2 to the power 32 on.
fn held<T: Copy + Into<i64>>(buffer: &[T], short: usize) -> String {
    let elements = buffer.iter().map(|&x| x.into());
    if buffer.len() <= short {
        return elements.fold("\nholds".to_string(), |text, x| format!("{text} {x}"));
    }
    let natural = |x: i64| if x < 0 { (1 << 32) - x } else { x };
    let sum = elements.fold(0, |sum, x| (sum * 31 + natural(x)) % 998_244_353);
    format!("\nholds {} elements of sum {sum}", buffer.len())
}
