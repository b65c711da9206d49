//! A newcomer in a book: the matrices of the book get a row, and a role where permissions are left over.

use second::limits::{ROLES, USERS};
use second::refusal::Refusal;
use second::roles::State;

use crate::book::{Counts, book_length, write_book};
use crate::checker::Claim;
use crate::sets::{Permissions, Roles};
use crate::sheet::Sheet;

/// Writes the book of the sheet with this line put behind it to the front of the buffer.
pub fn newcomer(sheet_bytes: &[u8], book: &[u8], line: &[u8], buffer: &mut [u8]) -> Result<usize, Refusal> {
    let mut sheet = Sheet::empty();
    sheet.read(sheet_bytes)?;
    let (name, row) = sheet.read_line(sheet_bytes, line)?;
    let mut claim = Claim::none();
    claim.judge(&sheet, sheet_bytes, book)?;
    let user = sheet.users.count();
    if sheet.users.find(name).is_some() {
        return Err(Refusal::NameTaken);
    }
    if user == USERS {
        return Err(Refusal::UsersFull);
    }
    let mut counts = claim.counts();
    let (mut roles, left_over) = roles_within(row, &claim.matrices.gives[..counts.roles]);
    if !left_over.is_empty() {
        if counts.roles == ROLES {
            return Err(Refusal::RolesFull);
        }
        roles.add(counts.roles);
        claim.matrices.gives[counts.roles] = left_over;
        counts = Counts { roles: counts.roles + 1, bound: claim.witness().len(), state: State::Open };
    }
    claim.matrices.has[user] = roles;
    sheet.users.add(name).expect("the name is not taken, and there is room for a user");
    let length = book_length(&sheet, &counts, claim.witness());
    let out = buffer.get_mut(..length).ok_or(Refusal::BufferLength)?;
    write_book(out, &sheet, &counts, &claim.matrices, claim.witness());
    Ok(length)
}

/// The roles whose permissions all stand in this row, and what of the row none of them holds.
fn roles_within(row: Permissions, gives: &[Permissions]) -> (Roles, Permissions) {
    let (mut roles, mut left_over) = (Roles::NONE, row);
    for (role, permissions) in gives.iter().enumerate() {
        if permissions.minus(row).is_empty() {
            roles.add(role);
            left_over = left_over.minus(*permissions);
        }
    }
    (roles, left_over)
}
