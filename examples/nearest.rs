// Prints the permitted settings nearest to what was wished, by name.
//
//     nearest RULES WISH
//
// The comments before the header of the rule file may name settings: `c NUMBER NAME`, where two spaces end the name.
// In bindings/rust:
//
//     cargo run --example nearest -- RULES WISH

use powhanire::{nearest, read_rules, read_wishes, room, version, Refusal, FREE, ON, VERSION};
use std::error::Error;
use std::io::Write;
use std::path::PathBuf;
use std::process::ExitCode;

struct File {
    name: PathBuf,
    bytes: Vec<u8>,
}

impl File {
    fn read(name: PathBuf) -> Result<File, String> {
        let bytes = std::fs::read(&name).map_err(|_| format!("{}: cannot be read", name.display()))?;
        Ok(File { name, bytes })
    }

    /// Where the file is refused, and what is wrong.
    fn refused(&self, refusal: Refusal) -> String {
        let (line, column) = refusal.position(&self.bytes);
        format!("{}:{line}:{column}: {}", self.name.display(), refusal.what())
    }
}

fn without_spaces(text: &[u8]) -> &[u8] {
    &text[text.iter().take_while(|&&byte| byte == b' ').count()..]
}

/// A setting's name, or else its number.
fn name_of(setting: usize, rules: &[u8]) -> Vec<u8> {
    let number = format!("{setting} ");
    let comments = rules.split(|&byte| byte == b'\n').map_while(|line| line.strip_prefix(b"c"));
    comments
        .filter_map(|comment| without_spaces(comment).strip_prefix(number.as_bytes()))
        .map(|rest| {
            let name = without_spaces(rest);
            let end = name.windows(2).position(|pair| pair == b"  ");
            &name[..end.unwrap_or(name.len())]
        })
        .find(|name| !name.is_empty())
        .map_or_else(|| setting.to_string().into_bytes(), <[u8]>::to_vec)
}

fn print_nearest(rule_file: &File, wish_file: &File) -> Result<(), Box<dyn Error>> {
    let (mut rules, mut row, mut choice) = (vec![0; room::RULES], [0; room::ROW], [0; room::ROW]);
    let book = read_rules(&rule_file.bytes, &mut rules).map_err(|refusal| rule_file.refused(refusal))?;
    let wishes = read_wishes(&wish_file.bytes, &mut row).map_err(|refusal| wish_file.refused(refusal))?;
    let found = nearest(book.settings, book.list, wishes.row, &mut choice).map_err(|refusal| match refusal.number {
        11 => wish_file.refused(refusal), // the wishes are for another n
        _ => rule_file.refused(refusal),
    })?;
    let word = |value| if value == ON { "on" } else { "off" };
    let mut text = Vec::new();
    if let Some(broken) = found {
        writeln!(text, "{broken} of {} wishes broken", wishes.wishes)?;
        for (at, (&wish, &value)) in wishes.row.iter().zip(&choice).enumerate() {
            write!(text, "{:4} ", word(value))?;
            text.extend(name_of(at + 1, &rule_file.bytes));
            if wish != FREE && wish != value {
                write!(text, " (wished {})", word(wish))?;
            }
            writeln!(text)?;
        }
    } else {
        writeln!(text, "no choice meets the rules")?;
    }
    std::io::stdout().write_all(&text).map_err(|_| "standard output: cannot be written")?;
    Ok(())
}

fn run(rules: PathBuf, wish: PathBuf) -> Result<(), Box<dyn Error>> {
    if version() != VERSION {
        return Err("libpowhanire.a: not of the crate's version".into());
    }
    print_nearest(&File::read(rules)?, &File::read(wish)?)
}

fn main() -> ExitCode {
    let mut arguments = std::env::args_os().skip(1).map(PathBuf::from);
    let (Some(rules), Some(wish), None) = (arguments.next(), arguments.next(), arguments.next()) else {
        eprintln!("usage: nearest RULES WISH");
        return ExitCode::from(2);
    };
    match run(rules, wish) {
        Ok(()) => ExitCode::SUCCESS,
        Err(error) => {
            eprintln!("{error}");
            ExitCode::FAILURE
        }
    }
}
