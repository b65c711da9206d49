//! Prints the role book of the grant sheet on standard input, after a search with the budget given as the
//! argument.

use std::io::{Read, Write};

use programs::{book_output, budget};

fn main() -> std::io::Result<()> {
    let argument = std::env::args_os().nth(1);
    let budget = budget(argument.as_deref().and_then(|text| text.to_str()));
    let mut sheet = Vec::new();
    std::io::stdin().read_to_end(&mut sheet)?;
    std::io::stdout().write_all(&book_output(&sheet, budget))
}
