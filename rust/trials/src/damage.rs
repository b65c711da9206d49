//! Damaged sheets and books.

use std::collections::BTreeSet;

use crate::book_draft::BookDraft;
use crate::draft::Draft;
use crate::paper;
use crate::random::Random;
use crate::spelling;

/// Bytes that matter somewhere, and some that never may stand.
const BYTES: &[u8] = b",,,\n\n\n0011rRuU29-._ \r\0\"\xc3\xc4\xe4";

/// One to three edits anywhere in the text.
pub fn bytes(random: &mut Random, text: &[u8]) -> Vec<u8> {
    let mut damaged = text.to_vec();
    for _ in 0..random.between(1, 3) {
        edit(random, &mut damaged);
    }
    damaged
}

fn edit(random: &mut Random, text: &mut Vec<u8>) {
    let place = random.below(text.len() + 1);
    match random.below(9) {
        0 => text.insert(place, *random.pick(BYTES)),
        1 if place < text.len() => text[place] = *random.pick(BYTES),
        2 if place < text.len() => drop(text.remove(place)),
        3 if random.percent(20) => text.truncate(place),
        4 => move_piece(random, text, b'\n', true),
        5 => move_piece(random, text, b'\n', false),
        6 => move_piece(random, text, b',', true),
        // A letter changes its case, and any other byte becomes one that differs by 32.
        7 if place < text.len() => text[place] ^= 32,
        _ => move_piece(random, text, b',', false),
    }
}

/// Takes a piece between two separators to another place, or puts a copy of it there.
fn move_piece(random: &mut Random, text: &mut Vec<u8>, separator: u8, keep: bool) {
    let mut pieces: Vec<&[u8]> = text.split(|byte| *byte == separator).collect();
    let from = random.below(pieces.len());
    let piece = if keep { pieces[from] } else { pieces.remove(from) };
    let to = random.between(0, pieces.len());
    if random.percent(70) {
        pieces.insert(to, piece);
    }
    *text = pieces.join(&separator);
}

/// A book changed in what it says, in some cases with counts that follow the change, in some with names in other case,
/// a name misspelt, a word in other case or damaged bytes on top.
pub fn book(random: &mut Random, draft: &Draft, text: &[u8]) -> Vec<u8> {
    let mut book = BookDraft::made_out(draft, &String::from_utf8_lossy(text));
    for _ in 0..random.between(0, 2) {
        change(random, draft, &mut book);
    }
    if random.percent(70) {
        agree(random, &mut book);
    }
    let changed = book.text(draft).into_bytes();
    match random.below(10) {
        0..=2 => bytes(random, &changed),
        3..=6 => spelling::book(random, draft, &changed),
        7 if random.percent(30) => spelling::misspelt_book(random, draft, &changed).1,
        7 if random.percent(30) => spelling::with_word_in_other_case(random, draft, &changed),
        _ => changed,
    }
}

fn change(random: &mut Random, draft: &Draft, book: &mut BookDraft) {
    match random.below(8) {
        0 => book.role_count = other_count(random, &book.role_count),
        1 => book.bound = other_count(random, &book.bound),
        2 => book.state = random.pick(&["witnessed", "searched", "open", "Open", "closed", ""]).to_string(),
        3 => toggle(random, &mut book.roles, draft.permissions.len()),
        4 => toggle(random, &mut book.users, book.roles.len()),
        5 => add_roles(random, book),
        _ => change_witness(random, draft, book),
    }
}

fn other_count(random: &mut Random, count: &str) -> String {
    match random.below(6) {
        0 => format!("0{count}"),
        1 => format!("{count}0"),
        2 => "0".to_string(),
        3 => format!("+{count}"),
        4 => "9".repeat(random.between(1, 60)),
        _ => random.below(6).to_string(),
    }
}

fn toggle(random: &mut Random, rows: &mut [BTreeSet<usize>], width: usize) {
    if rows.is_empty() || width == 0 {
        return;
    }
    let row = &mut rows[random.below(rows.len())];
    let place = random.below(width);
    if !row.remove(&place) {
        row.insert(place);
    }
}

/// Adds roles that hold nothing or that copy another; in some cases up to the limit or one beyond.
fn add_roles(random: &mut Random, book: &mut BookDraft) {
    let more = match random.below(10) {
        0 => paper::ROLES.saturating_sub(book.roles.len()),
        1 => (paper::ROLES + 1).saturating_sub(book.roles.len()),
        _ => 1,
    };
    for _ in 0..more {
        let copied = if random.percent(50) { book.roles.first() } else { None };
        let role = copied.cloned().unwrap_or_default();
        book.roles.push(role);
    }
}

fn change_witness(random: &mut Random, draft: &Draft, book: &mut BookDraft) {
    let any_cell = (random.below(draft.users.len()), random.below(draft.permissions.len()));
    match random.below(6) {
        0 => book.witness.reverse(),
        1 => book.witness.clear(),
        2 => drop(book.witness.pop()),
        3 => book.witness.push(any_cell),
        4 => {
            book.witness.pop();
            book.witness.extend(book.witness.first().copied());
        }
        _ => {
            book.witness.pop();
            book.witness.push(any_cell);
        }
    }
}

/// Makes the counts agree, with a state word that allows it where there is one.
pub fn agree(random: &mut Random, book: &mut BookDraft) {
    let (roles, witness) = (book.roles.len(), book.witness.len());
    let (state, bound) = match random.below(2) {
        _ if witness == roles => ("witnessed", roles),
        0 => ("searched", roles),
        _ => ("open", witness),
    };
    book.role_count = roles.to_string();
    book.bound = bound.to_string();
    book.state = state.to_string();
}
