//! The checker: judges a book against a sheet without a session.

use crate::book::{Book, COUNTS_HEADING, ROLE_HEADING, USER_HEADING, WITNESS_HEADING, role_name};
use crate::grants::{self, Grant, fits};
use crate::limits;
use crate::names;
use crate::refusal::Refusal;
use crate::roles::{Role, State};
use crate::sheet::{Permission, Sheet, User};

/// What the checker answers about an accepted book.
#[derive(Clone, Copy, Debug, PartialEq, Eq)]
pub struct CheckAnswer {
    pub roles: usize,
    pub witness_lines: usize,
}

/// Judges the sheet first, then the book's form, counts, product and witness.
pub fn check(sheet: &[u8], book: &[u8]) -> Result<CheckAnswer, Refusal> {
    let book = accepted(&Sheet::read(sheet)?, book)?;
    Ok(CheckAnswer { roles: book.roles.len(), witness_lines: book.witness.len() })
}

/// What a book says that stands for this sheet, or the lowest cause to refuse it.
pub fn accepted(sheet: &Sheet, book: &[u8]) -> Result<Book, Refusal> {
    let claim = Claim::read(sheet, book).ok_or(Refusal::BookForm)?;
    if !claim.counts_agree() {
        Err(Refusal::BookCounts)
    } else if !claim.product_is(sheet) {
        Err(Refusal::BookProduct)
    } else if !claim.witness_stands(sheet) {
        Err(Refusal::BookWitness)
    } else {
        Ok(claim.book(sheet))
    }
}

/// What a book of the form claims. Counts stay digits, since they may have any length.
struct Claim<'a> {
    roles: &'a [u8],
    bound: &'a [u8],
    state: State,
    /// For each role, whether it holds each permission.
    gives: Vec<Vec<bool>>,
    /// For each user, whether they have each role.
    has: Vec<Vec<bool>>,
    witness: Vec<Grant>,
}

type Line<'a> = &'a [u8];

impl<'a> Claim<'a> {
    /// Reads a book, or gives nothing if it is not of the form. No line within a block is empty, so empty
    /// lines part the blocks.
    fn read(sheet: &Sheet, book: &'a [u8]) -> Option<Claim<'a>> {
        if book.len() > limits::BOOK_BYTES {
            return None;
        }
        let lines: Vec<Line<'a>> = book.strip_suffix(b"\n")?.split(|byte| *byte == b'\n').collect();
        let blocks: Vec<&[Line<'a>]> = lines.split(|line| line.is_empty()).collect();
        let [counts, roles, users, witness] = blocks[..] else {
            return None;
        };
        let (role_count, bound, state) = read_counts(counts)?;
        let gives = read_roles(sheet, roles)?;
        Some(Claim {
            roles: role_count,
            bound,
            state,
            has: read_users(sheet, gives.len(), users)?,
            gives,
            witness: read_witness(sheet, witness)?,
        })
    }

    /// The book that claims this, once its counts agree.
    fn book(self, sheet: &Sheet) -> Book {
        let role = |(index, gives): (usize, &Vec<bool>)| Role {
            users: sheet.users().filter(|user| self.has[user.0][index]).collect(),
            permissions: sheet.permissions().filter(|permission| gives[permission.0]).collect(),
        };
        Book {
            bound: self.state.bound(self.gives.len(), self.witness.len()),
            state: self.state,
            roles: self.gives.iter().enumerate().map(role).collect(),
            witness: self.witness,
        }
    }

    fn counts_agree(&self) -> bool {
        let roles = self.gives.len();
        let witness_lines = self.witness.len();
        let state_agrees = match self.state {
            State::Witnessed => says(self.bound, roles) && witness_lines == roles,
            State::Searched => says(self.bound, roles) && witness_lines < roles,
            State::Open => says(self.bound, witness_lines) && witness_lines < roles,
        };
        says(self.roles, roles) && state_agrees
    }

    fn product_is(&self, sheet: &Sheet) -> bool {
        sheet.users().all(|user| {
            sheet
                .permissions()
                .all(|permission| self.opens(user, permission) == sheet.holds(user, permission))
        })
    }

    /// The cell of the product: no before the first role; after each role, in their order, what it was, or "the
    /// user has the role and the role holds the permission".
    fn opens(&self, user: User, permission: Permission) -> bool {
        self.gives
            .iter()
            .zip(&self.has[user.0])
            .fold(false, |cell, (permissions, has_role)| cell || (*has_role && permissions[permission.0]))
    }

    fn witness_stands(&self, sheet: &Sheet) -> bool {
        self.witness.iter().enumerate().all(|(index, grant)| {
            let earlier = &self.witness[..index];
            grants::is_held(sheet, *grant) && !earlier.iter().any(|other| fits(sheet, *other, *grant))
        })
    }
}

/// Whether a count without leading zeros is this number.
fn says(digits: &[u8], number: usize) -> bool {
    digits == number.to_string().as_bytes()
}

fn fields<'a>(line: Line<'a>) -> Vec<&'a [u8]> {
    line.split(|byte| *byte == b',').collect()
}

fn read_counts<'a>(block: &[Line<'a>]) -> Option<(&'a [u8], &'a [u8], State)> {
    let [heading, values] = block else {
        return None;
    };
    let [roles, bound, word] = fields(values)[..] else {
        return None;
    };
    let state = State::ALL.into_iter().find(|state| state.word().as_bytes() == word)?;
    let of_the_form = *heading == COUNTS_HEADING.as_bytes() && is_count(roles) && is_count(bound);
    of_the_form.then_some((roles, bound, state))
}

/// Decimal, of any length, without leading zeros.
fn is_count(digits: &[u8]) -> bool {
    match digits {
        [] => false,
        [first, ..] => digits.iter().all(u8::is_ascii_digit) && (digits.len() == 1 || *first != b'0'),
    }
}

fn read_roles(sheet: &Sheet, block: &[Line<'_>]) -> Option<Vec<Vec<bool>>> {
    let (heading, rows) = block.split_first()?;
    let permissions = fields_after(ROLE_HEADING, heading)?;
    if !are_the_permissions(sheet, &permissions) || rows.len() > limits::ROLES {
        return None;
    }
    let numbered = rows.iter().enumerate();
    numbered
        .map(|(index, row)| read_cells(&fields_after(&role_name(index), row)?, permissions.len()))
        .collect()
}

/// Whether these are the sheet's permissions in their order, each spelled in any case.
fn are_the_permissions(sheet: &Sheet, fields: &[&[u8]]) -> bool {
    let mut named = sheet.permissions().zip(fields);
    fields.len() == sheet.permissions().count()
        && named.all(|(permission, field)| names::are_one(sheet.permission_name(permission), field))
}

fn read_users(sheet: &Sheet, role_count: usize, block: &[Line<'_>]) -> Option<Vec<Vec<bool>>> {
    let (heading, rows) = block.split_first()?;
    let roles = fields_after(USER_HEADING, heading)?;
    let are_the_roles = roles.len() == role_count
        && roles.iter().enumerate().all(|(index, field)| *field == role_name(index).as_bytes());
    if !are_the_roles || rows.len() != sheet.users().count() {
        return None;
    }
    sheet.users().zip(rows).map(|(user, row)| read_user(sheet, user, role_count, row)).collect()
}

/// The cells of a user line. The user's name may be spelled in any case.
fn read_user(sheet: &Sheet, user: User, role_count: usize, row: Line<'_>) -> Option<Vec<bool>> {
    let fields = fields(row);
    let is_the_user = names::are_one(sheet.user_name(user), fields[0]);
    if is_the_user { read_cells(&fields[1..], role_count) } else { None }
}

fn read_witness(sheet: &Sheet, block: &[Line<'_>]) -> Option<Vec<Grant>> {
    let (heading, rows) = block.split_first()?;
    if *heading != WITNESS_HEADING.as_bytes() {
        return None;
    }
    rows.iter().map(|row| read_grant(sheet, row)).collect()
}

fn read_grant(sheet: &Sheet, row: Line<'_>) -> Option<Grant> {
    let [user, permission] = fields(row)[..] else {
        return None;
    };
    Some(Grant { user: sheet.user_named(user)?, permission: sheet.permission_named(permission)? })
}

/// The fields of a line behind the first, which has to be this word or role name to the byte.
fn fields_after<'a>(word: &str, line: Line<'a>) -> Option<Vec<&'a [u8]>> {
    let fields = fields(line);
    (fields[0] == word.as_bytes()).then(|| fields[1..].to_vec())
}

/// What these fields say, of which there have to be so many.
fn read_cells(fields: &[&[u8]], count: usize) -> Option<Vec<bool>> {
    if fields.len() != count {
        return None;
    }
    fields.iter().map(|field| read_cell(field)).collect()
}

fn read_cell(field: &[u8]) -> Option<bool> {
    match field {
        b"0" => Some(false),
        b"1" => Some(true),
        _ => None,
    }
}
