//! Sheets and books with names and words of the form in another spelling: in other case, or misspelt.

use crate::book_draft::{BookDraft, Place, with_fields};
use crate::draft::{Draft, NAME_CHARACTERS};
use crate::random::Random;
use crate::restated::spelling::place;

/// Bytes next to the letters and 32 apart from each other, and letters of other alphabets.
const NEAR_LETTERS: &[u8] = b"@[`{\x7f_-\r\x00\x80\xc4\xe4\xc1\xe1\xff";

/// The name with each letter small or capital at random.
pub fn name(random: &mut Random, name: &str) -> String {
    name.chars().map(|letter| if random.percent(50) { turned(letter) } else { letter }).collect()
}

/// The word or name with one letter in the other case at least. It has to have a letter.
fn in_other_case(random: &mut Random, word: &str) -> String {
    random.until_found(|random| Some(name(random, word)).filter(|other| other != word))
}

/// The letter in its other case; what is no letter stays.
fn turned(letter: char) -> char {
    match letter {
        'A'..='Z' => letter.to_ascii_lowercase(),
        _ => letter.to_ascii_uppercase(),
    }
}

/// The word with all its letters in the other case.
pub fn all_turned(word: &str) -> String {
    word.chars().map(turned).collect()
}

fn has_letter(word: &[u8]) -> bool {
    word.iter().any(u8::is_ascii_alphabetic)
}

/// The same sheet with the case of its names changed.
pub fn sheet(random: &mut Random, draft: &Draft) -> Draft {
    let mut draft = draft.clone();
    for own in draft.users.iter_mut().chain(&mut draft.permissions) {
        *own = name(random, own);
    }
    draft
}

/// The same sheet with two users or two permissions whose names differ in case only. A sheet of one user gets a second
/// one if the two are to be users.
pub fn with_clash(random: &mut Random, draft: &Draft) -> Draft {
    let mut draft = draft.clone();
    let is_about_permissions = draft.permissions.len() > 1 && random.percent(50);
    if !is_about_permissions && draft.users.len() == 1 {
        draft.users.push("second".to_string());
        draft.held.push(draft.held[0].clone());
    }
    let names = if is_about_permissions { &mut draft.permissions } else { &mut draft.users };
    let one = random.below(names.len());
    let other = (one + random.between(1, names.len() - 1)) % names.len();
    if !has_letter(names[one].as_bytes()) {
        names[one] = "Ann".to_string();
    }
    names[other] = in_other_case(random, &names[one]);
    draft
}

/// The bytes of the sheet with its first field, `user`, in other case.
pub fn with_first_field_in_other_case(random: &mut Random, draft: &Draft) -> Vec<u8> {
    let mut sheet = draft.bytes();
    let word = in_other_case(random, "user");
    sheet[..word.len()].copy_from_slice(word.as_bytes());
    sheet
}

/// The bytes of the sheet with one byte of a name replaced by a letter of another alphabet.
pub fn with_foreign_letter(random: &mut Random, draft: &Draft) -> Vec<u8> {
    let mut sheet = draft.bytes();
    let first_name = "user,".len();
    sheet[first_name] = *random.pick(b"\xc4\xe4\xc1\xe1\xd6\xf6");
    sheet
}

/// The book with the case of its names changed, each occurrence for itself.
pub fn book(random: &mut Random, draft: &Draft, book: &[u8]) -> Vec<u8> {
    with_fields(draft, book, |place, field| match (place, str::from_utf8(field)) {
        (Some(_), Ok(text)) => name(random, text).into_bytes(),
        _ => field.to_vec(),
    })
}

/// The book with one of its names misspelt by a byte, so that it is none of the sheet's, and the place of that name.
/// The text has to be a book of the sheet.
pub fn misspelt_book(random: &mut Random, draft: &Draft, book: &[u8]) -> (Place, Vec<u8>) {
    let mut found = Vec::new();
    with_fields(draft, book, |place, field| {
        found.extend(place);
        field.to_vec()
    });
    let kind =
        random.until_found(|random| Some(*random.pick(&Place::ALL)).filter(|kind| found.contains(kind)));
    let chosen = random.below(found.iter().filter(|place| **place == kind).count());
    let mut passed = 0;
    let changed = with_fields(draft, book, |place, field| {
        passed += usize::from(place == Some(kind));
        if place == Some(kind) && passed == chosen + 1 {
            misspelt(random, kind.names(draft), field)
        } else {
            field.to_vec()
        }
    });
    (kind, changed)
}

/// The name with a byte changed, left out or put to it, so that it is none of these names.
fn misspelt(random: &mut Random, names: &[String], name: &[u8]) -> Vec<u8> {
    random.until_found(|random| {
        let mut changed = name.to_vec();
        let index = random.below(name.len());
        match random.below(7) {
            0..=1 => changed[index] ^= 32,
            2 => changed[index] ^= 128,
            3 => changed[index] = *random.pick(NEAR_LETTERS),
            4 => changed[index] = *random.pick(NAME_CHARACTERS),
            5 => drop(changed.remove(index)),
            _ => changed.insert(index, *random.pick(NAME_CHARACTERS)),
        }
        place(names, &changed).is_none().then_some(changed)
    })
}

/// The book with a word of the form or a role name in other case.
pub fn with_word_in_other_case(random: &mut Random, draft: &Draft, book: &[u8]) -> Vec<u8> {
    let is_word = |place: Option<Place>, field: &[u8]| place.is_none() && has_letter(field);
    let mut words = 0;
    with_fields(draft, book, |place, field| {
        words += usize::from(is_word(place, field));
        field.to_vec()
    });
    let chosen = random.below(words);
    let mut passed = 0;
    with_fields(draft, book, |place, field| {
        if !is_word(place, field) {
            return field.to_vec();
        }
        passed += 1;
        let word = String::from_utf8_lossy(field);
        if passed == chosen + 1 { in_other_case(random, &word).into_bytes() } else { field.to_vec() }
    })
}

/// The book with its last witness line naming the grant of the first, and with the case of all names changed; nothing
/// if there are no two witness lines. Its counts agree as before.
pub fn with_witness_twice(random: &mut Random, draft: &Draft, text: &[u8]) -> Option<Vec<u8>> {
    let mut changed = BookDraft::made_out(draft, &String::from_utf8_lossy(text));
    let first = *changed.witness.first()?;
    *changed.witness.get_mut(1..)?.last_mut()? = first;
    Some(book(random, draft, changed.text(draft).as_bytes()))
}
