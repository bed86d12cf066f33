//! Prints the file of the export to OPB.

use reference::{exported, opb, program};

fn main() -> std::io::Result<()> {
    program::run(|book, wishes| {
        exported(book.n, &book.list, &wishes.row, wishes.d)?;
        Ok(opb::write(book.n, &book.list, &wishes.row, wishes.d))
    })
}
