//! walks nearest                   this library's nearest beside the same search in Rust, as a table
//! walks search                    its wish search beside two Rust walks, as a table
//! walks reading                   this library's reader of rule files beside the reference's, as a table
//! walks write FOLDER              the books of the process table: FOLDER/CLASS/SEED.cnf, .wish, .opb
//! walks rewrite CNF WISH D OUT    the rewritten rule file at limit D

mod books;
mod cores;
mod counted;
mod reading;

use books::Book;
use reference::{first, rule_file, totalizer, walk, wish_file};
use std::fmt::Write;

/// Kind, settings, rules, wishes, books timed.
type Class = (&'static str, usize, usize, usize, usize);

/// Those of nearest: makers' books, and random ones of growing difficulty; the last are contradictory.
const NEAREST: [Class; 12] = [
    ("terminal", 40, 100, 20, 20),
    ("terminal", 80, 250, 30, 20),
    ("terminal", 120, 500, 40, 20),
    ("terminal", 250, 600, 64, 10),
    ("terminal", 250, 900, 64, 10),
    ("terminal", 250, 1500, 64, 10),
    ("random", 64, 180, 64, 20),
    ("random", 256, 300, 64, 20),
    ("random", 256, 400, 64, 20),
    ("random", 128, 320, 64, 10),
    ("random", 256, 700, 64, 5),
    ("random", 128, 700, 64, 5),
];

/// Those of the wish search, with the least number of broken wishes as the limit.
const SEARCHED: [Class; 8] = [
    ("random", 64, 180, 64, 20),
    ("random", 256, 300, 64, 20),
    ("terminal", 40, 100, 20, 20),
    ("terminal", 80, 250, 30, 20),
    ("terminal", 120, 500, 40, 20),
    ("terminal", 250, 600, 64, 10),
    ("terminal", 250, 900, 64, 10),
    ("terminal", 250, 1500, 64, 10),
];

/// Those of the process table.
const PROCESSES: [Class; 11] = [
    ("terminal", 40, 100, 20, 5),
    ("terminal", 80, 250, 30, 5),
    ("terminal", 120, 500, 40, 5),
    ("terminal", 250, 600, 64, 5),
    ("terminal", 250, 900, 64, 5),
    ("terminal", 250, 1500, 64, 5),
    ("random", 64, 180, 64, 5),
    ("random", 256, 400, 64, 5),
    ("random", 128, 320, 64, 5),
    ("random", 256, 700, 64, 5),
    ("random", 128, 700, 64, 5),
];

/// A book on which document 01's walk makes more forks is left out of the table of the wish search, and counted there.
const MOST_FORKS: u64 = 50_000;

fn book((kind, n, rules, wishes, _): Class, seed: u64) -> Book {
    match kind {
        "random" => books::random(seed, n, rules, wishes),
        _ => books::terminal(seed, n, rules, wishes),
    }
}

fn name((kind, n, rules, wishes, _): Class) -> String {
    format!("{kind}-{n}-{rules}-{wishes}")
}

/// Seconds of processor time, which other work on the machine alters less than the clock on the wall.
fn now() -> f64 {
    #[repr(C)]
    struct Time {
        seconds: i64,
        nanoseconds: i64,
    }
    extern "C" {
        fn clock_gettime(clock: i32, time: *mut Time) -> i32;
    }
    let mut time = Time { seconds: 0, nanoseconds: 0 };
    // 2 is CLOCK_PROCESS_CPUTIME_ID
    assert_eq!(unsafe { clock_gettime(2, &mut time) }, 0);
    time.seconds as f64 + time.nanoseconds as f64 * 1e-9
}

/// Seconds a call: the median of three, each a mean over 10 ms; one call where it is slow.
fn seconds<T>(mut call: impl FnMut() -> T) -> f64 {
    let mut sample = || {
        let (start, mut calls) = (now(), 0.0);
        loop {
            std::hint::black_box(call());
            calls += 1.0;
            let taken = now() - start;
            if taken > 0.01 {
                return taken / calls;
            }
        }
    };
    let first = sample();
    if first > 0.2 {
        first
    } else {
        quartiles(&mut [first, sample(), sample()])[1]
    }
}

fn quartiles(values: &mut [f64]) -> [f64; 3] {
    values.sort_by(f64::total_cmp);
    [1, 2, 3].map(|k| values[(values.len() - 1) * k / 4])
}

/// Three digits that count.
fn short(value: f64) -> String {
    let digits = (2 - value.abs().log10().floor() as i32).clamp(0, 7) as usize;
    format!("{value:.digits$}")
}

/// The median and the quartiles.
fn spread(values: &[f64], shown: impl Fn(f64) -> String) -> String {
    let [low, middle, high] = quartiles(&mut values.to_vec()).map(shown);
    format!("{middle} ({low} to {high})")
}

fn milliseconds(seconds: f64) -> String {
    short(seconds * 1000.0)
}

/// Of a table's columns: forks of a call, and of the library and each Rust program the seconds.
#[derive(Default)]
struct Measured {
    forks: Vec<f64>,
    seconds: Vec<Vec<f64>>,
}

impl Measured {
    fn add(&mut self, forks: u64, seconds: Vec<f64>) {
        self.forks.push(forks as f64);
        self.seconds.resize(seconds.len(), Vec::new());
        self.seconds.iter_mut().zip(seconds).for_each(|(all, taken)| all.push(taken));
    }

    /// Milliseconds a call and forks a second, of each program.
    fn cells(&self) -> String {
        let rate = |times: &[f64]| format!("{:.0}", self.forks.iter().sum::<f64>() / times.iter().sum::<f64>());
        let mut cells = vec![spread(&self.forks, |f| f.to_string())];
        self.seconds.iter().for_each(|times| cells.extend([spread(times, milliseconds), rate(times)]));
        cells.join(" | ")
    }
}

/// The library must find what the Rust program finds and, as far as document 01's walk reaches, what the reference
/// finds by that.
fn nearest() {
    println!("| books | timed (held to the reference) | forks a call | library: ms a call | forks/s | Rust: ms a call | forks/s |");
    println!("|{}", "---|".repeat(7));
    for class in NEAREST {
        let (mut measured, mut held) = (Measured::default(), 0);
        for book in (0..class.4 as u64).map(|seed| book(class, seed)) {
            let (list, row) = (&book.list[..], &book.row[..]);
            let (n, mut choice) = (row.len() as u64, vec![0; row.len()]);
            let (found, forks) = cores::nearest(list, row);
            let broken = powhanire::nearest(n, list, row, &mut choice).unwrap();
            assert_eq!(broken.map(|_| &choice), found.as_ref(), "not the same choice");
            if let Some(right) = first::by_searches(list, row, MOST_FORKS) {
                assert_eq!(found, right.choice, "not the reference's choice");
                held += 1;
            }
            let library = seconds(|| powhanire::nearest(n, list, row, &mut choice));
            measured.add(forks, vec![library, seconds(|| cores::nearest(list, row))]);
        }
        println!("| {} | {} ({held}) | {} |", name(class), class.4, measured.cells());
    }
}

/// The wish search at the least number of broken wishes. All must find the same choice, the Rust walks with as many forks.
fn search() {
    print!("| books | timed (left out) | forks a call | library: ms a call | forks/s ");
    println!("| plain Rust: ms a call | forks/s | Rust with counts: ms a call | forks/s |");
    println!("|{}", "---|".repeat(9));
    for class in SEARCHED {
        let (mut measured, mut left_out) = (Measured::default(), 0);
        for book in (0..).map(|seed| book(class, seed)) {
            if measured.forks.len() == class.4 {
                break;
            }
            let (list, row) = (&book.list[..], &book.row[..]);
            let (n, mut choice) = (row.len() as u64, vec![0; row.len()]);
            let d = powhanire::nearest(n, list, row, &mut choice).unwrap().unwrap_or(0);
            let Some(right) = walk::search_within(list, row, d, MOST_FORKS) else {
                left_out += 1;
                continue;
            };
            let counted = || counted::Walk::new(list, row, d).run();
            let broken = powhanire::search(n, list, row, d, &mut choice).unwrap();
            assert_eq!(broken.map(|_| &choice), right.choice.as_ref(), "not the same choice");
            assert_eq!(counted(), (right.choice, right.forks), "not the same walk");
            let library = seconds(|| powhanire::search(n, list, row, d, &mut choice));
            let plain = seconds(|| walk::search(list, row, d).choice);
            measured.add(right.forks, vec![library, plain, seconds(counted)]);
        }
        println!("| {} | {} ({left_out}) | {} |", name(class), class.4, measured.cells());
    }
}

fn readers() {
    println!("| file | bytes | library: ms a call | MB/s | reference: ms a call | MB/s |");
    println!("|---|---|---|---|---|---|");
    for (name, file) in reading::files() {
        let mut rules = vec![0; powhanire::room::RULES];
        let list = powhanire::read_rules(&file, &mut rules).unwrap().list;
        assert_eq!(list, rule_file::read(&file).unwrap().list, "not the same rules");
        let library = seconds(|| powhanire::read_rules(&file, &mut rules).is_ok());
        let times = [library, seconds(|| rule_file::read(&file))];
        let cells = times.map(|t| format!("{} | {:.0}", short(t * 1000.0), file.len() as f64 / t / 1e6));
        println!("| {name} | {} | {} |", file.len(), cells.join(" | "));
    }
}

/// The rules with the broken wishes to be made fewest, for a pseudo-Boolean solver. A wish for on costs 1 less
/// the setting, and that 1 is left out, so the wishes for on are to be added to the optimum.
fn opb(book: &Book) -> String {
    let rules = book.list.iter().filter(|&&e| e == 0).count();
    let mut text = format!("* #variable= {} #constraint= {rules}\nmin:", book.row.len());
    for (at, &wish) in book.row.iter().enumerate().filter(|(_, &w)| w != 2) {
        write!(text, " {}1 x{}", ["+", "-"][wish as usize], at + 1).unwrap();
    }
    text += " ;\n";
    let mut least = 1;
    for &e in &book.list {
        if e == 0 {
            writeln!(text, ">= {least} ;").unwrap();
            least = 1;
        } else {
            write!(text, "{}1 x{} ", if e > 0 { "+" } else { "-" }, e.abs()).unwrap();
            least -= (e < 0) as i32;
        }
    }
    text
}

fn write(folder: &str) {
    for class in PROCESSES {
        let folder = format!("{folder}/{}", name(class));
        std::fs::create_dir_all(&folder).unwrap();
        for seed in 0..class.4 as u64 {
            let book = book(class, seed);
            let rules = rule_file::write(book.row.len() as u64, &book.list);
            std::fs::write(format!("{folder}/{seed}.cnf"), rules).unwrap();
            std::fs::write(format!("{folder}/{seed}.wish"), wish_file::write(&book.row, 0)).unwrap();
            std::fs::write(format!("{folder}/{seed}.opb"), opb(&book)).unwrap();
        }
        println!("{}", name(class));
    }
}

fn rewrite(cnf: &str, wish: &str, d: u64, out: &str) {
    let rules = rule_file::read(&std::fs::read(cnf).unwrap()).unwrap();
    let wishes = wish_file::read(&std::fs::read(wish).unwrap()).unwrap();
    let (settings, list) = totalizer::rewrite(rules.n, &rules.list, &wishes.row, d);
    std::fs::write(out, rule_file::write(settings, &list)).unwrap();
}

fn main() {
    let words: Vec<String> = std::env::args().skip(1).collect();
    match words.iter().map(String::as_str).collect::<Vec<_>>()[..] {
        ["nearest"] => nearest(),
        ["search"] => search(),
        ["reading"] => readers(),
        ["write", folder] => write(folder),
        ["rewrite", cnf, wish, d, out] => rewrite(cnf, wish, d.parse().unwrap(), out),
        _ => panic!("walks nearest | search | reading | write FOLDER | rewrite CNF WISH D OUT"),
    }
}
