//! The book (a role decomposition with its certificate) and its bytes.

use crate::grants::Grant;
use crate::refusal::Refusal;
use crate::roles::{Role, State};
use crate::sheet::{Sheet, User};

/// First line of the first block.
pub const COUNTS_HEADING: &str = "roles,bound,state";

/// First field of the block of roles.
pub const ROLE_HEADING: &str = "role";

/// First field of the block of users.
pub const USER_HEADING: &str = "user";

/// First line of the block of witness grants.
pub const WITNESS_HEADING: &str = "user,permission";

/// What a book says about its sheet.
#[derive(Clone, Debug, PartialEq, Eq)]
pub struct Book {
    pub bound: usize,
    pub state: State,
    pub roles: Vec<Role>,
    /// In the order of their lines; a session's stand in grant order.
    pub witness: Vec<Grant>,
}

impl Book {
    /// Writes the book to the front of the buffer and gives its byte count; the bytes past it stay, and all of them where
    /// the buffer is too short.
    pub fn write(&self, sheet: &Sheet, buffer: &mut [u8]) -> Result<usize, Refusal> {
        let book = self.render(sheet);
        let front = buffer.get_mut(..book.len()).ok_or(Refusal::BufferLength)?;
        front.copy_from_slice(&book);
        Ok(book.len())
    }

    /// Four blocks with one empty line between.
    pub fn render(&self, sheet: &Sheet) -> Vec<u8> {
        [self.counts_block(), self.roles_block(sheet), self.users_block(sheet), self.witness_block(sheet)]
            .join(&b'\n')
    }

    fn counts_block(&self) -> Vec<u8> {
        let word = self.state.word();
        format!("{COUNTS_HEADING}\n{},{},{word}\n", self.roles.len(), self.bound).into_bytes()
    }

    /// 1 says that the role holds the permission.
    fn roles_block(&self, sheet: &Sheet) -> Vec<u8> {
        let names = sheet.permissions().map(|permission| sheet.permission_name(permission));
        let mut block = line(ROLE_HEADING.as_bytes(), names);
        for (index, role) in self.roles.iter().enumerate() {
            let cells = sheet.permissions().map(|permission| cell(role.permissions.contains(&permission)));
            block.extend(line(role_name(index).as_bytes(), cells));
        }
        block
    }

    /// 1 says that the user has the role.
    fn users_block(&self, sheet: &Sheet) -> Vec<u8> {
        let names: Vec<String> = (0..self.roles.len()).map(role_name).collect();
        let mut block = line(USER_HEADING.as_bytes(), names.iter().map(|name| name.as_bytes()));
        for user in sheet.users() {
            block.extend(line(sheet.user_name(user), self.user_cells(user)));
        }
        block
    }

    fn user_cells(&self, user: User) -> impl Iterator<Item = &'static [u8]> {
        self.roles.iter().map(move |role| cell(role.users.contains(&user)))
    }

    fn witness_block(&self, sheet: &Sheet) -> Vec<u8> {
        let mut block = line(WITNESS_HEADING.as_bytes(), std::iter::empty());
        for grant in &self.witness {
            let permission = sheet.permission_name(grant.permission);
            block.extend(line(sheet.user_name(grant.user), std::iter::once(permission)));
        }
        block
    }
}

/// The name of the role with this index from 0.
pub fn role_name(index: usize) -> String {
    format!("R{}", index + 1)
}

fn cell(value: bool) -> &'static [u8] {
    if value { b"1" } else { b"0" }
}

/// The first field, then each further one after a comma, then a line feed.
fn line<'a>(first: &[u8], others: impl Iterator<Item = &'a [u8]>) -> Vec<u8> {
    let mut bytes = first.to_vec();
    for field in others {
        bytes.push(b',');
        bytes.extend(field);
    }
    bytes.push(b'\n');
    bytes
}
