//! Makes the calls of a script on one session: a call a line on standard input, an answer a line on standard
//! output.

use std::io::BufRead;
use std::process::ExitCode;
use std::str::FromStr;

use programs::number;
use second::limits::SCRIPT_BUFFER_BYTES;
use second::script::{Call, answer_line};
use second::session::Session;

fn main() -> ExitCode {
    let mut session = Session::fresh();
    for line in std::io::stdin().lock().lines() {
        match line.map_err(|error| error.to_string()).and_then(|line| read_call(&line)) {
            Ok(call) => println!("{}", answer_line(&mut session, &call)),
            Err(message) => {
                eprintln!("second-play: {message}");
                return ExitCode::from(2);
            }
        }
    }
    ExitCode::SUCCESS
}

fn read_call(line: &str) -> Result<Call, String> {
    let words: Vec<&str> = line.split(' ').collect();
    match words[..] {
        ["load", path] => Ok(Call::Load(read_file(path)?)),
        ["reduce"] => Ok(Call::Reduce),
        ["search", budget] => Ok(Call::Search(read_number(budget)?)),
        ["write", length] => Ok(Call::Write(read_length(length)?)),
        ["check", sheet, book] => Ok(Call::Check { sheet: read_file(sheet)?, book: read_file(book)? }),
        ["newcomer", sheet, book, line, length] => Ok(Call::Newcomer {
            sheet: read_file(sheet)?,
            book: read_file(book)?,
            line: read_file(line)?,
            length: read_length(length)?,
        }),
        _ => Err(format!("no such call: {line}")),
    }
}

fn read_file(path: &str) -> Result<Vec<u8>, String> {
    std::fs::read(path).map_err(|error| format!("{path}: {error}"))
}

fn read_number<Number: FromStr>(text: &str) -> Result<Number, String> {
    number(text).ok_or_else(|| format!("no number of the range: {text}"))
}

fn read_length(text: &str) -> Result<usize, String> {
    let length = read_number(text)?;
    if length > SCRIPT_BUFFER_BYTES {
        return Err(format!("a buffer has at most {SCRIPT_BUFFER_BYTES} bytes: {length}"));
    }
    Ok(length)
}
