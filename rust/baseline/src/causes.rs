//! The lowest cause to refuse a sheet, each looked for in a pass of its own. Only a sheet that was not read in
//! the fast way comes here.

use second::limits;
use second::refusal::Refusal;

/// The lowest cause that applies.
pub fn lowest_cause(sheet: &[u8]) -> Option<Refusal> {
    if sheet.len() > limits::SHEET_BYTES {
        return Some(Refusal::SheetLength);
    }
    match sheet.split_last() {
        Some((b'\n', text)) if text.iter().all(|byte| is_allowed(*byte)) => lowest_of_lines(text),
        _ => Some(Refusal::SheetBytes),
    }
}

/// The lowest cause to refuse an accepted sheet of so many grants with a line put behind it. Whether there are too many
/// users then, or two of one name, is not judged.
pub fn lowest_of_longer(sheet: &[u8], grants: usize, line: &[u8]) -> Option<Refusal> {
    if sheet.len() + line.len() > limits::SHEET_BYTES {
        return Some(Refusal::SheetLength);
    }
    let Some((b'\n', text)) = line.split_last() else { return Some(Refusal::SheetBytes) };
    let mut cells = fields(text);
    let name = cells.next().unwrap_or_default();
    if !text.iter().all(|byte| is_allowed(*byte) && *byte != b'\n') {
        Some(Refusal::SheetBytes)
    } else if !is_name_length(name.len()) {
        Some(Refusal::NameLength)
    } else if cells.clone().count() != permission_names(sheet).count() {
        Some(Refusal::FieldCount)
    } else if cells.clone().any(|cell| cell != b"0" && cell != b"1") {
        Some(Refusal::FieldValue)
    } else if grants + cells.filter(|cell| *cell == b"1").count() > limits::GRANTS {
        Some(Refusal::GrantCount)
    } else {
        None
    }
}

/// Whether a byte may stand in a sheet.
pub fn is_allowed(byte: u8) -> bool {
    is_name_byte(byte) || byte == b',' || byte == b'\n'
}

/// Whether a byte may stand in a name.
pub const fn is_name_byte(byte: u8) -> bool {
    byte.is_ascii_alphanumeric() || matches!(byte, b'-' | b'.' | b'_')
}

fn lowest_of_lines(text: &[u8]) -> Option<Refusal> {
    let width = fields(first_line(text)).count();
    let lines = user_lines(text);
    let is_named = fields(first_line(text)).next() == Some(b"user");
    if !is_named || !(2..=limits::PERMISSIONS + 1).contains(&width) {
        Some(Refusal::FirstLine)
    } else if !(1..=limits::USERS).contains(&lines.clone().count()) {
        Some(Refusal::UserLines)
    } else if !permission_names(text).chain(user_names(text)).all(|name| is_name_length(name.len())) {
        Some(Refusal::NameLength)
    } else if lines.clone().any(|line| fields(line).count() != width) {
        Some(Refusal::FieldCount)
    } else if cells(text).any(|cell| cell != b"0" && cell != b"1") {
        Some(Refusal::FieldValue)
    } else if any_twice(permission_names(text)) || any_twice(user_names(text)) {
        Some(Refusal::NameTwice)
    } else if cells(text).filter(|cell| *cell == b"1").count() > limits::GRANTS {
        Some(Refusal::GrantCount)
    } else {
        None
    }
}

fn is_name_length(length: usize) -> bool {
    (1..=limits::NAME_BYTES).contains(&length)
}

fn lines(text: &[u8]) -> impl Iterator<Item = &[u8]> + Clone {
    text.split(|byte| *byte == b'\n')
}

fn fields(line: &[u8]) -> impl Iterator<Item = &[u8]> + Clone {
    line.split(|byte| *byte == b',')
}

fn first_line(text: &[u8]) -> &[u8] {
    lines(text).next().unwrap_or_default()
}

fn user_lines(text: &[u8]) -> impl Iterator<Item = &[u8]> + Clone {
    lines(text).skip(1)
}

fn permission_names(text: &[u8]) -> impl Iterator<Item = &[u8]> + Clone {
    fields(first_line(text)).skip(1)
}

fn user_names(text: &[u8]) -> impl Iterator<Item = &[u8]> + Clone {
    user_lines(text).map(|line| fields(line).next().unwrap_or_default())
}

fn cells(text: &[u8]) -> impl Iterator<Item = &[u8]> + Clone {
    user_lines(text).flat_map(|line| fields(line).skip(1))
}

/// Whether two of these names are one, spelled in any case.
fn any_twice<'a>(names: impl Iterator<Item = &'a [u8]> + Clone) -> bool {
    let mut rest = names;
    while let Some(name) = rest.next() {
        if rest.clone().any(|other| other.eq_ignore_ascii_case(name)) {
            return true;
        }
    }
    false
}
