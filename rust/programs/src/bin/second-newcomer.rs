//! A newcomer in a book: prints the book of the sheet with the line put behind it, or the number of the refusal.

use std::process::ExitCode;

use programs::{newcomer_output, print_of_files};

fn main() -> ExitCode {
    print_of_files("second-newcomer", ["SHEET", "BOOK", "LINE"], |[sheet, book, line]| {
        newcomer_output(&sheet, &book, &line)
    })
}
