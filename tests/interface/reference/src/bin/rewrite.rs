//! Prints the file of the rewritten rules.

use reference::{program, rule_file, totalizer, wished};

fn main() -> std::io::Result<()> {
    program::run(|book, wishes| {
        wished(book.n, &book.list, &wishes.row, wishes.d)?;
        let (settings, list) = totalizer::rewrite(book.n, &book.list, &wishes.row, wishes.d);
        Ok(rule_file::write(settings, &list))
    })
}
