//! The form of a book, stated by writing it again: names are spelled as in the sheet, whatever can be made out of the
//! bytes is written anew by the rules of the book, and the book is of the form if that gives the same bytes. Then
//! counts, product and witness over sets of cells.

use std::collections::BTreeSet;

use crate::book_draft::{BookDraft, Cell, with_fields};
use crate::draft::Draft;
use crate::paper;
use crate::restated::spelling;

/// Roles and witness lines of a book that stands, or the number of the refusal, for an acceptable sheet.
pub fn verdict(draft: &Draft, bytes: &[u8]) -> Result<(usize, usize), u32> {
    let spelled = spelled_as_in_the_sheet(draft, bytes);
    let book = canonical(BookDraft::made_out(draft, &String::from_utf8_lossy(&spelled)));
    let within_limits = bytes.len() <= paper::BOOK_BYTES && book.roles.len() <= paper::ROLES;
    if !within_limits || book.text(draft).as_bytes() != spelled {
        return Err(12);
    }
    let held: BTreeSet<Cell> = draft.grants().into_iter().collect();
    if !counts_agree(&book) {
        Err(13)
    } else if book.opened() != held {
        Err(14)
    } else if !witness_stands(&book.witness, &held) {
        Err(15)
    } else {
        Ok((book.roles.len(), book.witness.len()))
    }
}

/// The same bytes, with the sheet's spelling of each name that is one of the sheet's. All else stays.
pub fn spelled_as_in_the_sheet(draft: &Draft, bytes: &[u8]) -> Vec<u8> {
    with_fields(draft, bytes, |place, field| {
        let known = place.and_then(|place| {
            let names = place.names(draft);
            spelling::place(names, field).map(|index| names[index].clone().into_bytes())
        });
        known.unwrap_or(field.to_vec())
    })
}

/// The same book with counts as they have to be written, and a state word that there is.
fn canonical(mut book: BookDraft) -> BookDraft {
    book.role_count = canonical_count(&book.role_count);
    book.bound = canonical_count(&book.bound);
    if !["witnessed", "searched", "open"].contains(&book.state.as_str()) {
        book.state = "open".to_string();
    }
    book
}

/// The digits of the text without leading zeros.
fn canonical_count(text: &str) -> String {
    let digits: String = text.chars().filter(char::is_ascii_digit).collect();
    match digits.trim_start_matches('0') {
        "" => "0".to_string(),
        significant => significant.to_string(),
    }
}

fn counts_agree(book: &BookDraft) -> bool {
    let roles = book.roles.len() as u64;
    let witness = book.witness.len() as u64;
    let bound = as_number(&book.bound);
    let state_agrees = match book.state.as_str() {
        "witnessed" => (bound, witness) == (roles, roles),
        "searched" => bound == roles && witness < roles,
        _ => bound == witness && bound < roles,
    };
    state_agrees && as_number(&book.role_count) == roles
}

/// A count too large for a number is larger than anything that is counted.
fn as_number(count: &str) -> u64 {
    count.parse().unwrap_or(u64::MAX)
}

/// Each witness cell is held, and the crossed cells are both held for none but itself.
fn witness_stands(witness: &[Cell], held: &BTreeSet<Cell>) -> bool {
    let both_held =
        |one: &Cell, other: &Cell| held.contains(&(one.0, other.1)) && held.contains(&(other.0, one.1));
    witness.iter().all(|one| {
        let fitting_lines = witness.iter().filter(|other| both_held(one, other)).count();
        held.contains(one) && fitting_lines == 1
    })
}
