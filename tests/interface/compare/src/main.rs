//! Compares the library with the reference. Without an argument every group runs; `compare GROUP` runs one.

mod both;
mod exports;
mod files;
mod page;
mod random;
mod searches;
mod twins;
mod values;

use both::Both;

/// A group's name, its runs, and one run from its own seed.
type Group = (&'static str, u64, fn(&mut Both, &mut random::Random));

fn main() {
    let only = std::env::args().nth(1);
    let groups: Vec<Group> = [files::GROUPS, values::GROUPS, searches::GROUPS, twins::GROUPS, exports::GROUPS].concat();
    let mut both = Both::new();
    for (name, runs, run) in groups.iter().filter(|g| only.as_deref().map_or(true, |o| o == g.0)) {
        let (before, start) = (both.passed, std::time::Instant::now());
        let seed = name.bytes().fold(0u64, |sum, b| sum.wrapping_mul(31).wrapping_add(b as u64));
        for k in 0..*runs {
            both.label = format!("{name}, run {k}");
            run(&mut both, &mut random::Random(seed.wrapping_add(k << 32)));
        }
        println!("{name:<42} {:>9} passed {:>7.1} s", both.passed - before, start.elapsed().as_secs_f64());
    }
    if only.is_none() {
        every_answer_was_seen(&mut both);
    }
    println!("{} passed, {} failed", both.passed, both.failed);
    std::process::exit((both.failed > 0) as i32);
}

/// The refusals and verdicts that each call can give; one that never came was never compared.
fn every_answer_was_seen(both: &mut Both) {
    both.label = "answers seen".to_string();
    println!("\nanswers seen: refusal number or verdict, and how often");
    for call in calls::PUBLIC {
        let refusals = call.refusals.iter().map(|&number| (number, 0, number.to_string()));
        let verdicts = call.says.verdicts().iter().map(|&(verdict, name)| (0, verdict, name.to_string()));
        let mut line = String::new();
        for (refusal, verdict, name) in refusals.chain(verdicts) {
            let times = both.seen.remove(&(call.name, refusal, verdict)).unwrap_or(0);
            line += &format!("  {name}: {times}");
            both.hold(times > 0, || format!("{} never gave {name}", call.name));
        }
        println!("{:<13}{line}", call.name);
    }
    let others = format!("{:?}", both.seen);
    both.hold(both.seen.is_empty(), || format!("answers that the documents do not have: {others}"));
}
