//! What the small programs share: numbers in arguments and scripts, files that arguments name, and what the book program,
//! the check program, the newcomer program and the search program print.

use std::io::Write;
use std::process::ExitCode;
use std::str::FromStr;
use std::time::{Duration, Instant};

use second::checker::check;
use second::implementation::Implementation;
use second::limits::{JOIN_BUFFER_BYTES, PROGRAM_BUFFER_BYTES};
use second::newcomer::newcomer;
use second::refusal::Refusal;
use second::rounds::{DEFAULT_ROUNDS, Rounds};
use second::session::book;

/// The number that decimal digits say, if it is in range.
pub fn number<Number: FromStr>(text: &str) -> Option<Number> {
    let digits_only = text.bytes().all(|byte| byte.is_ascii_digit());
    digits_only.then(|| text.parse().ok()).flatten()
}

/// The budget that an argument says, 0 if it says none.
pub fn budget(argument: Option<&str>) -> u32 {
    argument.and_then(number).unwrap_or(0)
}

/// The rounds that an argument says, 3,600 if it says none or says 0.
pub fn rounds(argument: Option<&str>) -> u32 {
    argument.and_then(number).filter(|rounds| *rounds > 0).unwrap_or(DEFAULT_ROUNDS)
}

/// The book of the sheet after one search, written into the program's buffer, or the number of the refusal and a
/// line feed.
pub fn book_output(sheet: &[u8], budget: u32) -> Vec<u8> {
    searched_book(sheet, budget).unwrap_or_else(number_line)
}

fn searched_book(sheet: &[u8], budget: u32) -> Result<Vec<u8>, Refusal> {
    let mut buffer = vec![0; PROGRAM_BUFFER_BYTES];
    let count = book(sheet, budget, &mut buffer)?;
    buffer.truncate(count);
    Ok(buffer)
}

/// Roles and witness lines, or the number of the refusal.
pub fn check_output(sheet: &[u8], book: &[u8]) -> Vec<u8> {
    match check(sheet, book) {
        Ok(answer) => format!("{},{}\n", answer.roles, answer.witness_lines).into_bytes(),
        Err(refusal) => number_line(refusal),
    }
}

/// The book of the sheet with the line put behind it, or the number of the refusal and a line feed.
pub fn newcomer_output(sheet: &[u8], book: &[u8], line: &[u8]) -> Vec<u8> {
    let mut buffer = vec![0; JOIN_BUFFER_BYTES];
    match newcomer(sheet, book, line, &mut buffer) {
        Ok(count) => buffer[..count].to_vec(),
        Err(refusal) => number_line(refusal),
    }
}

/// Prints what a program makes of the files that its arguments name, which are called so where they are missing.
pub fn print_of_files<const COUNT: usize>(
    program: &str,
    arguments: [&str; COUNT],
    output: impl Fn([Vec<u8>; COUNT]) -> Vec<u8>,
) -> ExitCode {
    let paths: Vec<_> = std::env::args_os().skip(1).collect();
    if paths.len() != COUNT {
        eprintln!("use: {program} {}", arguments.join(" "));
        return ExitCode::from(2);
    }
    let files: Result<Vec<Vec<u8>>, std::io::Error> = paths.iter().map(std::fs::read).collect();
    let written = files.and_then(|files| {
        let files = files.try_into().expect("there are as many files as arguments");
        std::io::stdout().write_all(&output(files))
    });
    match written {
        Ok(()) => ExitCode::SUCCESS,
        Err(error) => {
            eprintln!("{program}: {error}");
            ExitCode::from(2)
        }
    }
}

/// The book of the sheet after so many rounds, or the number of the refusal and a line feed. Each round's line is said
/// when it is made.
pub fn search_output<Kind: Implementation>(sheet: &[u8], rounds: u32, say: impl FnMut(String)) -> Vec<u8> {
    book_after_rounds::<Kind>(sheet, rounds, say).unwrap_or_else(number_line)
}

fn book_after_rounds<Kind: Implementation>(
    sheet: &[u8],
    rounds: u32,
    mut say: impl FnMut(String),
) -> Result<Vec<u8>, Refusal> {
    let mut rounds = Rounds::<Kind>::start(sheet, rounds)?;
    let mut start = Instant::now();
    for round in rounds.by_ref() {
        say(round.line(rate(round.answer.steps, start.elapsed())));
        start = Instant::now();
    }
    rounds.book()
}

/// Whole steps a second.
fn rate(steps: u32, time: Duration) -> u64 {
    let nanoseconds = time.as_nanos().max(1);
    (u128::from(steps) * Duration::from_secs(1).as_nanos() / nanoseconds) as u64
}

fn number_line(refusal: Refusal) -> Vec<u8> {
    format!("{}\n", refusal.number()).into_bytes()
}
