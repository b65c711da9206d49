//! A newcomer in an existing book: a user line is put behind the sheet, and the longer sheet's book is made from a book
//! of the sheet. Nobody's roles move, and no role's permissions.

use std::collections::BTreeSet;

use crate::book::Book;
use crate::checker;
use crate::limits;
use crate::refusal::Refusal;
use crate::roles::{Role, State};
use crate::sheet::{Permission, Sheet, User};

/// Writes the book of the sheet with this line put behind it to the front of the buffer and gives its byte count; the
/// bytes past it stay. Judged are the sheet, the longer sheet, the book for the sheet as it is given, then the
/// newcomer's name, the users, the roles and the buffer.
pub fn newcomer(sheet: &[u8], book: &[u8], line: &[u8], buffer: &mut [u8]) -> Result<usize, Refusal> {
    let given = Sheet::read(sheet)?;
    let longer = Sheet::read_longer(sheet, line)?;
    let book = checker::accepted(&given, book)?;
    let users = given.users().count();
    let newcomer = User(users);
    if given.user_named(longer.user_name(newcomer)).is_some() {
        return Err(Refusal::NameTaken);
    }
    if users == limits::USERS {
        return Err(Refusal::UsersFull);
    }
    let book = with_newcomer(book, newcomer, &held_by(&longer, newcomer));
    if book.roles.len() > limits::ROLES {
        return Err(Refusal::RolesFull);
    }
    book.write(&longer, buffer)
}

fn held_by(sheet: &Sheet, user: User) -> BTreeSet<Permission> {
    sheet.permissions().filter(|permission| sheet.holds(user, *permission)).collect()
}

/// The newcomer gets each role whose permissions they all hold, a role without any included. If permissions are left
/// over, the newcomer alone gets one more role, the last one, that holds exactly those; the book is open then.
fn with_newcomer(mut book: Book, newcomer: User, held: &BTreeSet<Permission>) -> Book {
    let mut left_over = held.clone();
    for role in book.roles.iter_mut().filter(|role| role.permissions.is_subset(held)) {
        role.users.insert(newcomer);
        left_over.retain(|permission| !role.permissions.contains(permission));
    }
    if !left_over.is_empty() {
        book.roles.push(Role { users: BTreeSet::from([newcomer]), permissions: left_over });
        book.state = State::Open;
        book.bound = book.witness.len();
    }
    book
}
