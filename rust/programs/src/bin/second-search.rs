//! Searches the grant sheet on standard input in as many rounds as the argument says, with a line about each round on
//! standard error, and then prints its role book.

use std::io::{Read, Write};

use programs::{rounds, search_output};
use second::session::Session;

fn main() -> std::io::Result<()> {
    let argument = std::env::args_os().nth(1);
    let rounds = rounds(argument.as_deref().and_then(|text| text.to_str()));
    let mut sheet = Vec::new();
    std::io::stdin().read_to_end(&mut sheet)?;
    let output = search_output::<Session>(&sheet, rounds, |line| eprintln!("{line}"));
    std::io::stdout().write_all(&output)
}
