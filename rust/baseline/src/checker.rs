//! The checker: one pass over the book, each line held to what the sheet makes of it.

use second::book::{COUNTS_HEADING, ROLE_HEADING, USER_HEADING, WITNESS_HEADING};
use second::checker::CheckAnswer;
use second::limits::{BOOK_BYTES, PERMISSIONS, ROLES};
use second::refusal::Refusal;
use second::roles::State;

use crate::book::Counts;
use crate::names::Name;
use crate::roles::{Matrices, role_fields, role_name};
use crate::sets::{Permissions, Roles, Users};
use crate::sheet::{Cell, Reader, Sheet, cell, permission_of, user_of};

/// Judges the sheet first, then the book's form, counts, product and witness.
pub fn check(sheet_bytes: &[u8], book: &[u8]) -> Result<CheckAnswer, Refusal> {
    let mut sheet = Sheet::empty();
    sheet.read(sheet_bytes)?;
    let mut claim = Claim::none();
    claim.judge(&sheet, sheet_bytes, book)?;
    Ok(CheckAnswer { roles: claim.role_lines, witness_lines: claim.witness_lines })
}

/// What a book says.
pub struct Claim {
    roles: u64,
    bound: u64,
    state: State,
    role_lines: usize,
    pub matrices: Matrices,
    witness_lines: usize,
    /// The first witness lines; with more than there can be roles the counts disagree.
    witness: [Cell; ROLES],
}

impl Claim {
    pub fn none() -> Claim {
        Claim {
            roles: 0,
            bound: 0,
            state: State::Open,
            role_lines: 0,
            matrices: Matrices::none(),
            witness_lines: 0,
            witness: [0; ROLES],
        }
    }

    /// Reads a book of the form and judges it, for the sheet that has these bytes.
    pub fn judge(&mut self, sheet: &Sheet, sheet_bytes: &[u8], book: &[u8]) -> Result<(), Refusal> {
        let mut reader = Reader { bytes: book, at: 0 };
        if book.len() > BOOK_BYTES || self.read(sheet, sheet_bytes, &mut reader).is_none() {
            Err(Refusal::BookForm)
        } else if !self.counts_agree() {
            Err(Refusal::BookCounts)
        } else if !self.product_is(sheet) {
            Err(Refusal::BookProduct)
        } else if !self.witness_stands(sheet) {
            Err(Refusal::BookWitness)
        } else {
            Ok(())
        }
    }

    /// What the first block of an accepted book says.
    pub fn counts(&self) -> Counts {
        Counts { roles: self.role_lines, bound: self.bound as usize, state: self.state }
    }

    /// The witness of an accepted book, in the order of its lines.
    pub fn witness(&self) -> &[Cell] {
        &self.witness[..self.witness_lines]
    }

    /// Reads a book of the form.
    fn read(&mut self, sheet: &Sheet, sheet_bytes: &[u8], reader: &mut Reader<'_>) -> Option<()> {
        self.read_counts(reader)?;
        reader.word(b"\n")?;
        self.read_roles(sheet, sheet_bytes, reader)?;
        reader.word(b"\n")?;
        self.read_users(sheet, reader)?;
        reader.word(b"\n")?;
        self.read_witness(sheet, reader)
    }

    fn read_counts(&mut self, reader: &mut Reader<'_>) -> Option<()> {
        reader.word(COUNTS_HEADING.as_bytes())?;
        reader.word(b"\n")?;
        self.roles = read_count(reader)?;
        self.bound = read_count(reader)?;
        let rest = &reader.bytes[reader.at..];
        self.state = State::ALL.into_iter().find(|state| rest.starts_with(state.word().as_bytes()))?;
        reader.at += self.state.word().len();
        reader.word(b"\n")
    }

    /// The heading goes on as the sheet's first line does, in any case.
    fn read_roles(&mut self, sheet: &Sheet, sheet_bytes: &[u8], reader: &mut Reader<'_>) -> Option<()> {
        let permissions = sheet.permissions.count();
        let names_length = permissions + sheet.permissions.byte_count() + 1;
        reader.word(ROLE_HEADING.as_bytes())?;
        reader.word_in_any_case(&sheet_bytes[USER_HEADING.len()..USER_HEADING.len() + names_length])?;
        while *reader.bytes.get(reader.at)? != b'\n' {
            let gives = self.matrices.gives.get_mut(self.role_lines)?;
            reader.word(role_name(self.role_lines))?;
            reader.word(b",")?;
            *gives = reader.cells(permissions)?;
            self.role_lines += 1;
        }
        Some(())
    }

    fn read_users(&mut self, sheet: &Sheet, reader: &mut Reader<'_>) -> Option<()> {
        reader.word(USER_HEADING.as_bytes())?;
        reader.word(role_fields(self.role_lines))?;
        reader.word(b"\n")?;
        for user in 0..sheet.users.count() {
            let name = sheet.users.name(user);
            let end = reader.at + name.length;
            if end >= reader.bytes.len()
                || Name::at(reader.bytes, reader.at, name.length).folded() != name.folded()
            {
                return None;
            }
            reader.at = end + 1;
            self.matrices.has[user] = reader.cells(self.role_lines)?;
        }
        Some(())
    }

    fn read_witness(&mut self, sheet: &Sheet, reader: &mut Reader<'_>) -> Option<()> {
        reader.word(WITNESS_HEADING.as_bytes())?;
        reader.word(b"\n")?;
        while reader.at < reader.bytes.len() {
            let user = sheet.users.find(reader.name_before(b',')?)?;
            let permission = sheet.permissions.find(reader.name_before(b'\n')?)?;
            if let Some(place) = self.witness.get_mut(self.witness_lines) {
                *place = cell(user, permission);
            }
            self.witness_lines += 1;
        }
        Some(())
    }

    fn counts_agree(&self) -> bool {
        let (roles, witness_lines) = (self.role_lines as u64, self.witness_lines as u64);
        let state_agrees = match self.state {
            State::Witnessed => self.bound == roles && witness_lines == roles,
            State::Searched => self.bound == roles && witness_lines < roles,
            State::Open => self.bound == witness_lines && witness_lines < roles,
        };
        self.roles == roles && state_agrees
    }

    fn product_is(&self, sheet: &Sheet) -> bool {
        let Matrices { has, gives } = &self.matrices;
        let opened = |has: &Roles| has.iter().fold(Permissions::NONE, |row, role| row.or(gives[role]));
        let users = sheet.users.count();
        has[..users].iter().zip(&sheet.rows).all(|(has, row)| opened(has) == *row)
    }

    /// Counts agree, so that there are no more witness lines than role lines. A line fits an earlier one whose
    /// permission is in its row and whose user is in its column.
    fn witness_stands(&self, sheet: &Sheet) -> bool {
        let mut earlier = Permissions::NONE;
        let mut earlier_users = [Users::NONE; PERMISSIONS];
        self.witness().iter().all(|own| {
            let (user, permission) = (user_of(*own), permission_of(*own));
            let column = sheet.columns[permission];
            let fits_earlier =
                earlier.and(sheet.rows[user]).any(|other| !earlier_users[other].and(column).is_empty());
            earlier.add(permission);
            earlier_users[permission].add(user);
            sheet.holds(user, permission) && !fits_earlier
        })
    }
}

/// Reads a count without leading zeros and the comma behind it. One too large for a number is larger than
/// anything that is counted.
fn read_count(reader: &mut Reader<'_>) -> Option<u64> {
    let from = reader.at;
    let mut value: u64 = 0;
    while let Some(byte @ b'0'..=b'9') = reader.bytes.get(reader.at) {
        value = value.saturating_mul(10).saturating_add(u64::from(byte - b'0'));
        reader.at += 1;
    }
    let has_leading_zero = reader.at - from > 1 && reader.bytes[from] == b'0';
    if reader.at == from || has_leading_zero {
        return None;
    }
    reader.word(b",")?;
    Some(value)
}
