//! Sequences of calls on one session, refused ones among them.

use std::path::Path;

use second::script::Call;
use second::session::Session;

use crate::damage;
use crate::draft::Draft;
use crate::extremes;
use crate::families;
use crate::newcomers::{self, Admission};
use crate::paper;
use crate::random::Random;
use crate::sessions::first_book;
use crate::spelling;

/// Searches of a sequence stay below this budget unless nothing is left to search.
const BUDGET: usize = 3_000;

/// A sequence of this many calls from a fresh session. The sheets have at most about this many users, and most of
/// them no more permissions. One of them may be another one with its names in other case.
pub fn sequence(random: &mut Random, length: usize, size: usize) -> Vec<Call> {
    let count = random.between(1, 3);
    let mut sheets: Vec<Draft> = (0..count).map(|_| any_draft(random, size)).collect();
    if random.percent(50) {
        sheets.push(spelling::sheet(random, &sheets[0]));
    }
    let mut session = Session::fresh();
    let mut calls = Vec::new();
    for _ in 0..length {
        let call = any_call(random, &sheets, &session);
        match &call {
            Call::Load(sheet) => drop(session.load(sheet)),
            Call::Reduce => drop(session.reduce()),
            Call::Search(budget) => drop(session.search(*budget)),
            Call::Write(_) | Call::Check { .. } | Call::Newcomer { .. } => (),
        }
        calls.push(call);
    }
    calls
}

fn any_draft(random: &mut Random, size: usize) -> Draft {
    if random.percent(15) { families::any_wide(random, size) } else { families::any(random, size) }
}

/// A call that goes well with the state of the session: a buffer just long enough, say, or one byte short. Reductions
/// come anywhere, and more often while the sheet is not reduced.
fn any_call(random: &mut Random, sheets: &[Draft], session: &Session) -> Call {
    match random.below(15) {
        0..=1 => Call::Load(any_sheet(random, sheets)),
        2 => Call::Reduce,
        3..=5 if matches!(session, Session::NotReduced(_)) => Call::Reduce,
        3..=8 => Call::Search(any_budget(random, session)),
        9..=12 => Call::Write(any_length(random, session)),
        13 => any_check(random, sheets),
        _ => any_newcomer(random, sheets),
    }
}

fn any_sheet(random: &mut Random, sheets: &[Draft]) -> Vec<u8> {
    let draft = random.pick(sheets);
    match random.below(14) {
        0..=6 => draft.bytes(),
        7 => extremes::of_bytes(paper::SHEET_BYTES + random.below(2)),
        8 => spelling::with_clash(random, draft).bytes(),
        9 => spelling::with_first_field_in_other_case(random, draft),
        _ => damage::bytes(random, &draft.bytes()),
    }
}

fn any_budget(random: &mut Random, session: &Session) -> u32 {
    let nothing_left = session.reduced().map_or(true, |reduced| reduced.machine().is_finished());
    let budget = match random.below(6) {
        0 => 0,
        1 => 1,
        2 if nothing_left => u32::MAX as usize,
        2 | 3 => random.below(30),
        _ => random.below(BUDGET),
    };
    budget as u32
}

/// Goes by the length of the book that there is, or would be if the sheet were reduced.
fn any_length(random: &mut Random, session: &Session) -> usize {
    let mut session = session.clone();
    session.reduce().ok();
    length_near(random, session.reduced().map_or(0, |reduced| reduced.book_bytes().len()))
}

/// Just the length that is needed, less, or more.
fn length_near(random: &mut Random, needed: usize) -> usize {
    match random.below(5) {
        0 => needed,
        1 => needed.saturating_sub(1),
        2 => random.below(needed + 1),
        _ => needed + random.below(200),
    }
}

fn any_check(random: &mut Random, sheets: &[Draft]) -> Call {
    let draft = random.pick(sheets);
    let book = first_book(&draft.bytes());
    let book = match random.below(10) {
        0..=4 => damage::book(random, draft, &book),
        5 => spelling::book(random, draft, &book),
        6 => spelling::misspelt_book(random, draft, &book).1,
        7 => spelling::with_witness_twice(random, draft, &book).unwrap_or(book),
        _ => book,
    };
    let sheet = if random.percent(20) { any_sheet(random, sheets) } else { draft.bytes() };
    Call::Check { sheet, book }
}

/// A newcomer in a book of one of the sheets, in some cases with something damaged.
fn any_newcomer(random: &mut Random, sheets: &[Draft]) -> Call {
    let draft = random.pick(sheets);
    let admission =
        if random.percent(70) { newcomers::any(random, draft) } else { newcomers::damaged(random, draft) };
    let length = length_near(random, admission.result().map_or(0, |book| book.len()));
    let Admission { sheet, book, line } = admission;
    Call::Newcomer { sheet, book, line, length }
}

/// The sequence as a script, a call a line. The sheets, books and lines that it names are written into the
/// directory.
pub fn script(calls: &[Call], directory: &Path) -> std::io::Result<String> {
    let mut script = String::new();
    for (index, call) in calls.iter().enumerate() {
        let file = |kind: &str, bytes: &[u8]| {
            let path = directory.join(format!("{index}-{kind}"));
            std::fs::write(&path, bytes).map(|()| path.display().to_string())
        };
        let line = match call {
            Call::Load(sheet) => format!("load {}", file("sheet", sheet)?),
            Call::Reduce => "reduce".to_string(),
            Call::Search(budget) => format!("search {budget}"),
            Call::Write(length) => format!("write {length}"),
            Call::Check { sheet, book } => format!("check {} {}", file("sheet", sheet)?, file("book", book)?),
            Call::Newcomer { sheet, book, line, length } => {
                let files = [file("sheet", sheet)?, file("book", book)?, file("line", line)?];
                format!("newcomer {} {length}", files.join(" "))
            }
        };
        script += &(line + "\n");
    }
    Ok(script)
}
