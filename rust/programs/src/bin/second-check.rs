//! Judges a book against a sheet: prints roles and witness lines, or the number of the refusal.

use std::process::ExitCode;

use programs::{check_output, print_of_files};

fn main() -> ExitCode {
    print_of_files("second-check", ["SHEET", "BOOK"], |[sheet, book]| check_output(&sheet, &book))
}
