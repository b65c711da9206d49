//! Calls on one session, each with one line of answer, so that two programs can be compared line by line.

use crate::checker::{CheckAnswer, check};
use crate::newcomer::newcomer;
use crate::refusal::Refusal;
use crate::session::{LoadAnswer, ReduceAnswer, SearchAnswer, Session};

/// One call with everything that it brings along.
#[derive(Clone, Debug, PartialEq, Eq)]
pub enum Call {
    Load(Vec<u8>),
    Reduce,
    Search(u32),
    /// A writing into a buffer of this length.
    Write(usize),
    Check {
        sheet: Vec<u8>,
        book: Vec<u8>,
    },
    /// A newcomer's book, written into a buffer of this length.
    Newcomer {
        sheet: Vec<u8>,
        book: Vec<u8>,
        line: Vec<u8>,
        length: usize,
    },
}

/// Makes the call and gives its line: the call's name, 0 or the number of the refusal, and the values, which
/// are 0 on a refusal.
pub fn answer_line(session: &mut Session, call: &Call) -> String {
    match call {
        Call::Load(sheet) => load_line(session.load(sheet)),
        Call::Reduce => reduce_line(session.reduce()),
        Call::Search(budget) => search_line(session.search(*budget)),
        Call::Write(length) => {
            let mut buffer = lent_buffer(*length);
            let written = session.write(&mut buffer);
            buffer_line("write", written, &buffer)
        }
        Call::Check { sheet, book } => check_line(check(sheet, book)),
        Call::Newcomer { sheet, book, line, length } => {
            let mut buffer = lent_buffer(*length);
            let written = newcomer(sheet, book, line, &mut buffer);
            buffer_line("newcomer", written, &buffer)
        }
    }
}

/// A buffer of this length as it is before a call writes into it.
pub fn lent_buffer(length: usize) -> Vec<u8> {
    (0..length).map(|index| ((31 * index + 7) % 256) as u8).collect()
}

/// Adler-32 of the bytes.
pub fn digest(bytes: &[u8]) -> u32 {
    const MODULUS: u32 = 65_521;
    let mut sum = 1;
    let mut sum_of_sums = 0;
    for byte in bytes {
        sum = (sum + u32::from(*byte)) % MODULUS;
        sum_of_sums = (sum_of_sums + sum) % MODULUS;
    }
    sum_of_sums << 16 | sum
}

fn load_line(answer: Result<LoadAnswer, Refusal>) -> String {
    match answer {
        Ok(counts) => format!("load 0 {} {} {}", counts.users, counts.permissions, counts.grants),
        Err(refusal) => format!("load {} 0 0 0", refusal.number()),
    }
}

fn reduce_line(answer: Result<ReduceAnswer, Refusal>) -> String {
    match answer {
        Ok(counts) => format!("reduce 0 {} {}", counts.kernel, counts.witness),
        Err(refusal) => format!("reduce {} 0 0", refusal.number()),
    }
}

fn search_line(answer: Result<SearchAnswer, Refusal>) -> String {
    match answer {
        Ok(found) => {
            let SearchAnswer { steps, placed, taken_back, closed, roles, bound, state } = found;
            format!("search 0 {steps} {placed} {taken_back} {closed} {roles} {bound} {}", state.word())
        }
        Err(refusal) => format!("search {} 0 0 0 0 0 0 -", refusal.number()),
    }
}

/// The line of a call that fills a lent buffer.
fn buffer_line(call: &str, answer: Result<usize, Refusal>, buffer: &[u8]) -> String {
    let (number, count) = match answer {
        Ok(count) => (0, count),
        Err(refusal) => (refusal.number(), 0),
    };
    format!("{call} {number} {count} {:08x}", digest(buffer))
}

fn check_line(answer: Result<CheckAnswer, Refusal>) -> String {
    match answer {
        Ok(counts) => format!("check 0 {} {}", counts.roles, counts.witness_lines),
        Err(refusal) => format!("check {} 0 0", refusal.number()),
    }
}
