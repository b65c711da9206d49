//! The grant sheet (user-permission assignment): the nine causes to refuse its bytes, and what an accepted
//! one says.

use crate::limits;
use crate::names;
use crate::refusal::Refusal;

/// A user's number, from 0 in sheet order.
#[derive(Clone, Copy, Debug, PartialEq, Eq, PartialOrd, Ord, Hash)]
pub struct User(pub usize);

/// A permission's number, from 0 in sheet order.
#[derive(Clone, Copy, Debug, PartialEq, Eq, PartialOrd, Ord, Hash)]
pub struct Permission(pub usize);

/// An accepted sheet.
#[derive(Clone, Debug, PartialEq, Eq)]
pub struct Sheet {
    user_names: Vec<Vec<u8>>,
    permission_names: Vec<Vec<u8>>,
    held: Vec<Vec<bool>>,
}

impl Sheet {
    /// Reads a sheet, or gives the lowest cause to refuse it.
    pub fn read(bytes: &[u8]) -> Result<Sheet, Refusal> {
        let text = Text::split(bytes);
        match text.lowest_cause(&Refusal::ALL) {
            Some(refusal) => Err(refusal),
            None => Ok(text.accepted()),
        }
    }

    /// Reads an accepted sheet with a user line put behind its bytes, or gives the lowest cause to refuse that one.
    /// Whether there are too many users then, or two of one name, is not judged; the first line is judged already.
    pub fn read_longer(accepted: &[u8], line: &[u8]) -> Result<Sheet, Refusal> {
        let bytes = [accepted, line].concat();
        let text = Text::split(&bytes);
        let of_the_line = (!is_one_line(line)).then_some(Refusal::SheetBytes);
        match text.lowest_cause(&LONGER_SHEET).into_iter().chain(of_the_line).min() {
            Some(refusal) => Err(refusal),
            None => Ok(text.accepted()),
        }
    }

    pub fn users(&self) -> impl Iterator<Item = User> + use<> {
        (0..self.user_names.len()).map(User)
    }

    pub fn permissions(&self) -> impl Iterator<Item = Permission> + use<> {
        (0..self.permission_names.len()).map(Permission)
    }

    pub fn holds(&self, user: User, permission: Permission) -> bool {
        self.held[user.0][permission.0]
    }

    /// The name as the sheet spells it.
    pub fn user_name(&self, user: User) -> &[u8] {
        &self.user_names[user.0]
    }

    /// The name as the sheet spells it.
    pub fn permission_name(&self, permission: Permission) -> &[u8] {
        &self.permission_names[permission.0]
    }

    /// The user of this name, which may be spelled in other case than in the sheet.
    pub fn user_named(&self, name: &[u8]) -> Option<User> {
        self.users().find(|user| names::are_one(self.user_name(*user), name))
    }

    /// The permission of this name, which may be spelled in other case than in the sheet.
    pub fn permission_named(&self, name: &[u8]) -> Option<Permission> {
        self.permissions().find(|permission| names::are_one(self.permission_name(*permission), name))
    }
}

/// The bytes of a sheet, accepted or not, and their lines parted into fields.
struct Text<'a> {
    bytes: &'a [u8],
    lines: Vec<Vec<&'a [u8]>>,
}

type Cause = fn(&Text<'_>) -> bool;

/// Each cause judges the whole sheet by itself, whatever the others say.
const CAUSES: [(Refusal, Cause); 9] = [
    (Refusal::SheetLength, length_is_wrong),
    (Refusal::SheetBytes, bytes_are_wrong),
    (Refusal::FirstLine, first_line_is_wrong),
    (Refusal::UserLines, user_line_count_is_wrong),
    (Refusal::NameLength, name_length_is_wrong),
    (Refusal::FieldCount, field_count_is_wrong),
    (Refusal::FieldValue, field_value_is_wrong),
    (Refusal::NameTwice, name_stands_twice),
    (Refusal::GrantCount, grant_count_is_wrong),
];

/// The causes by which a sheet with a line put behind it is judged.
const LONGER_SHEET: [Refusal; 6] = [
    Refusal::SheetLength,
    Refusal::SheetBytes,
    Refusal::NameLength,
    Refusal::FieldCount,
    Refusal::FieldValue,
    Refusal::GrantCount,
];

/// Whether a line feed stands at the end, and nowhere else.
fn is_one_line(line: &[u8]) -> bool {
    line.iter().position(|byte| *byte == b'\n').is_some_and(|place| place + 1 == line.len())
}

impl<'a> Text<'a> {
    /// Line feeds end lines and commas part fields; an empty line is one empty field.
    fn split(bytes: &'a [u8]) -> Text<'a> {
        let lines = bytes
            .strip_suffix(b"\n")
            .unwrap_or(bytes)
            .split(|byte| *byte == b'\n')
            .map(|line| line.split(|byte| *byte == b',').collect())
            .collect();
        Text { bytes, lines }
    }

    /// The lowest cause that applies of those by which it is judged.
    fn lowest_cause(&self, judged: &[Refusal]) -> Option<Refusal> {
        let mut causes = CAUSES.iter().filter(|(refusal, _)| judged.contains(refusal));
        causes.find(|(_, applies)| applies(self)).map(|(refusal, _)| *refusal)
    }

    /// The sheet that these lines say, once no cause applies.
    fn accepted(&self) -> Sheet {
        let cells = |line: &Vec<&[u8]>| line[1..].iter().map(|field| *field == b"1").collect();
        let owned = |name: &[u8]| name.to_vec();
        Sheet {
            user_names: self.user_names().map(owned).collect(),
            permission_names: self.permission_names().map(owned).collect(),
            held: self.user_lines().iter().map(cells).collect(),
        }
    }

    fn first_line(&self) -> &[&'a [u8]] {
        &self.lines[0]
    }

    /// Every line after the first is a user line, an empty one too.
    fn user_lines(&self) -> &[Vec<&'a [u8]>] {
        &self.lines[1..]
    }

    fn permission_names(&self) -> impl Iterator<Item = &'a [u8]> {
        self.first_line()[1..].iter().copied()
    }

    fn user_names(&self) -> impl Iterator<Item = &'a [u8]> {
        self.user_lines().iter().map(|line| line[0])
    }

    fn cells(&self) -> impl Iterator<Item = &'a [u8]> {
        self.user_lines().iter().flat_map(|line| line[1..].iter().copied())
    }
}

fn length_is_wrong(text: &Text<'_>) -> bool {
    text.bytes.len() > limits::SHEET_BYTES
}

fn bytes_are_wrong(text: &Text<'_>) -> bool {
    text.bytes.last() != Some(&b'\n') || !text.bytes.iter().all(|byte| is_allowed(*byte))
}

fn is_allowed(byte: u8) -> bool {
    byte.is_ascii_alphanumeric() || b"-._,\n".contains(&byte)
}

fn first_line_is_wrong(text: &Text<'_>) -> bool {
    let fields = text.first_line();
    fields[0] != b"user" || !(2..=limits::PERMISSIONS + 1).contains(&fields.len())
}

fn user_line_count_is_wrong(text: &Text<'_>) -> bool {
    !(1..=limits::USERS).contains(&text.user_lines().len())
}

fn name_length_is_wrong(text: &Text<'_>) -> bool {
    text.permission_names()
        .chain(text.user_names())
        .any(|name| !(1..=limits::NAME_BYTES).contains(&name.len()))
}

fn field_count_is_wrong(text: &Text<'_>) -> bool {
    let expected = text.first_line().len();
    text.user_lines().iter().any(|line| line.len() != expected)
}

fn field_value_is_wrong(text: &Text<'_>) -> bool {
    text.cells().any(|cell| cell != b"0" && cell != b"1")
}

fn name_stands_twice(text: &Text<'_>) -> bool {
    has_repeated(text.user_names()) || has_repeated(text.permission_names())
}

fn has_repeated<'a>(names: impl Iterator<Item = &'a [u8]>) -> bool {
    let names: Vec<&[u8]> = names.collect();
    let stood_before = |(index, name): (usize, &&[u8])| {
        let earlier = &names[..index];
        earlier.iter().any(|other| names::are_one(other, name))
    };
    names.iter().enumerate().any(stood_before)
}

fn grant_count_is_wrong(text: &Text<'_>) -> bool {
    text.cells().filter(|cell| *cell == b"1").count() > limits::GRANTS
}
