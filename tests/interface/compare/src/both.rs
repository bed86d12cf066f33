//! A call made on the library, by the raw layer of its Rust crate and by the safe one, and on the reference: the answers
//! and every byte of every lent buffer are compared.

use crate::page::Page;
use calls::{Answer, Buffer, Call, Kind, Lent, Made, Output, Value, Values, Writes};
use std::collections::BTreeMap;

const SHOWN: u64 = 10;

pub struct Both {
    pub passed: u64,
    pub failed: u64,
    /// where the input comes from, for a failure's report
    pub label: String,
    /// how often each call gave each refusal number and verdict
    pub seen: BTreeMap<(&'static str, u64, u64), u64>,
    /// for each kind of what is read
    read: Vec<Page>,
    /// for bytes and for numbers that are written
    written: [Page; 2],
}

/// What a call answered, and what it left of its output: bytes or numbers.
#[derive(Debug, PartialEq, Eq)]
pub struct Done {
    pub answer: Answer,
    pub bytes: Vec<u8>,
    pub numbers: Vec<i32>,
}

/// What one layer of the library made of a call: its answer, whether what is only read stayed, and what is left of the
/// output, if the bytes before it stayed.
struct Layer {
    answer: Answer,
    read_alike: bool,
    left: Option<Buffer>,
}

/// What the output holds before a call: no value that a call would write, and not all alike.
fn filled(writes: Option<Writes>, room: usize) -> Buffer {
    match writes {
        None => Buffer::default(),
        Some(Writes::List) => {
            Buffer { numbers: (0..room as i32).map(|k| 0x4000_0000 + k).collect(), ..Buffer::default() }
        }
        Some(_) => Buffer { bytes: (0..room).map(|k| 0x40 + (k % 61) as u8).collect(), ..Buffer::default() },
    }
}

impl Both {
    pub fn new() -> Both {
        let read = Kind::ALL.iter().map(|_| Page::new()).collect();
        let written = [Page::new(), Page::new()];
        Both { passed: 0, failed: 0, label: String::new(), seen: BTreeMap::new(), read, written }
    }

    /// A check that is no comparison of one call, such as the agreement of two routes.
    pub fn hold(&mut self, holds: bool, what: impl Fn() -> String) {
        if holds {
            self.passed += 1;
            return;
        }
        self.failed += 1;
        if self.failed <= SHOWN {
            println!("FAILED {}: {}", self.label, what());
        }
    }

    /// The call with an output of so many elements, if it has one; gives back what the raw layer answered and left.
    pub fn call(&mut self, call: &'static Call, values: &Values, room: usize) -> Done {
        let lent = &values.lend();
        let before = filled(call.writes, room);
        let mut expected = before.clone();
        let right = (call.reference)(lent, expected.lend());
        let mut first = None;
        for (name, made) in call.layers {
            let layer = self.made(*made, call, lent, &before);
            *self.seen.entry((call.name, layer.answer.refusal, layer.answer.verdict)).or_default() += 1;
            let alike = layer.answer == right && layer.read_alike && layer.left.as_ref() == Some(&expected);
            self.hold(alike, || {
                let input = format!("{}, {name}\n  input{} room {room}", call.name, shown(call, lent));
                let (answer, buffers) = (layer.answer, difference(&layer, &expected));
                format!("{input}\n  library {answer:?}\n  reference {right:?}\n  {buffers}")
            });
            first.get_or_insert(layer);
        }
        let raw = first.expect("a public call");
        let Buffer { bytes, numbers } = raw.left.unwrap_or(expected);
        Done { answer: raw.answer, bytes, numbers }
    }

    /// One layer, with all that it is lent at the ends of pages.
    fn made(&mut self, made: Made, call: &Call, lent: &Lent, before: &Buffer) -> Layer {
        let mut there = *lent;
        for (page, &kind) in self.read.iter_mut().zip(Kind::ALL).filter(|(_, kind)| call.lent.contains(kind)) {
            there.put(kind, page.lend_value(lent.value(kind)));
        }
        let [bytes, numbers] = &mut self.written;
        let answer = made(&there, Output { bytes: bytes.lend(&before.bytes), numbers: numbers.lend(&before.numbers) });
        let kept = |&kind: &Kind| self.read[kind as usize].kept(lent.value(kind));
        let left = bytes.after(before.bytes.len()).zip(numbers.after(before.numbers.len()));
        let left = left.map(|(bytes, numbers)| Buffer { bytes: bytes.to_vec(), numbers: numbers.to_vec() });
        Layer { answer, read_alike: call.lent.iter().all(kept), left }
    }
}

/// In which buffer a layer differs from what is right.
fn difference(layer: &Layer, expected: &Buffer) -> String {
    match &layer.left {
        None => "bytes before the output were written".to_string(),
        Some(left) if left != expected => {
            let [left, expected] = [left, expected].map(|b| short(&b.bytes) + &short(&b.numbers));
            format!("output {left}, reference {expected}")
        }
        _ if !layer.read_alike => "an input was written".to_string(),
        _ => "buffers alike".to_string(),
    }
}

/// What a call was lent to read.
fn shown(call: &Call, lent: &Lent) -> String {
    let value = |&kind: &Kind| match lent.value(kind) {
        Value::Number(number) => format!(" {kind:?} {number}"),
        Value::Numbers(numbers) => format!(" {kind:?} {}", short(numbers)),
        Value::Bytes(text) if kind.is_file() => {
            format!(" {kind:?} {:?}", String::from_utf8_lossy(&text[..text.len().min(2_000)]))
        }
        Value::Bytes(bytes) => format!(" {kind:?} {}", short(bytes)),
    };
    call.lent.iter().map(value).collect()
}

/// Enough of a list to see what it is.
fn short<T: std::fmt::Debug>(list: &[T]) -> String {
    let text = format!("{list:?}");
    match text.char_indices().nth(2_000) {
        Some((at, _)) => format!("{}... ({} elements)", &text[..at], list.len()),
        None => text,
    }
}
