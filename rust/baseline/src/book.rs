//! Writing a book in one pass. Names and cells are written in pieces of fixed size where there is room for
//! that within the book: what goes too far is written over by what follows.

use second::book::{COUNTS_HEADING, ROLE_HEADING, USER_HEADING, WITNESS_HEADING};
use second::limits::NAME_BYTES;
use second::roles::State;

use crate::names::Name;
use crate::roles::{Matrices, fields_length, role_fields, role_name};
use crate::sets::{Set, WORD_BITS};
use crate::sheet::{Cell, Sheet, permission_of, user_of};

/// What the first block says.
#[derive(Clone, Copy)]
pub struct Counts {
    pub roles: usize,
    pub bound: usize,
    pub state: State,
}

/// Bytes of the book.
pub fn book_length(sheet: &Sheet, counts: &Counts, witness: &[Cell]) -> usize {
    let (users, permissions, roles) = (sheet.users.count(), sheet.permissions.count(), counts.roles);
    let first = COUNTS_HEADING.len()
        + 1
        + digits(counts.roles)
        + digits(counts.bound)
        + counts.state.word().len()
        + 3;
    let role_heading = ROLE_HEADING.len() + permissions + sheet.permissions.byte_count() + 1;
    let role_lines = fields_length(roles) + 2 * roles * permissions;
    let user_heading = USER_HEADING.len() + fields_length(roles) + 1;
    let user_lines = sheet.users.byte_count() + users * (2 * roles + 1);
    let witness_lines: usize = witness.iter().map(|cell| witness_line_length(sheet, *cell)).sum();
    first
        + 1
        + role_heading
        + role_lines
        + 1
        + user_heading
        + user_lines
        + 1
        + WITNESS_HEADING.len()
        + 1
        + witness_lines
}

fn witness_line_length(sheet: &Sheet, cell: Cell) -> usize {
    sheet.users.name(user_of(cell)).length + sheet.permissions.name(permission_of(cell)).length + 2
}

/// Digits of a count, none of which is above 128.
fn digits(count: usize) -> usize {
    1 + usize::from(count >= 10) + usize::from(count >= 100)
}

/// Writes the book into a buffer of its length.
pub fn write_book(out: &mut [u8], sheet: &Sheet, counts: &Counts, matrices: &Matrices, witness: &[Cell]) {
    let mut writer = Writer { out, at: 0 };
    writer.counts(counts);
    writer.byte(b'\n');
    writer.roles(sheet, counts.roles, matrices);
    writer.byte(b'\n');
    writer.users(sheet, counts.roles, matrices);
    writer.byte(b'\n');
    writer.witness(sheet, witness);
}

/// A buffer, and how far it is written.
struct Writer<'a> {
    out: &'a mut [u8],
    at: usize,
}

/// Eight cells with a comma before each, for each byte of their bits.
const EIGHT_CELLS: [[u8; 16]; 256] = {
    let mut table = [[0; 16]; 256];
    let mut bits = 0;
    while bits < 256 {
        let mut place = 0;
        while place < 8 {
            table[bits][2 * place] = b',';
            table[bits][2 * place + 1] = b'0' + (bits >> place & 1) as u8;
            place += 1;
        }
        bits += 1;
    }
    table
};

impl Writer<'_> {
    #[inline]
    fn byte(&mut self, byte: u8) {
        self.out[self.at] = byte;
        self.at += 1;
    }

    #[inline]
    fn bytes(&mut self, bytes: &[u8]) {
        self.out[self.at..self.at + bytes.len()].copy_from_slice(bytes);
        self.at += bytes.len();
    }

    /// Writes the first bytes of a piece.
    #[inline]
    fn front(&mut self, piece: &[u8; 16], length: usize) {
        match self.out[self.at..].first_chunk_mut::<16>() {
            Some(wide) => *wide = *piece,
            None => self.out[self.at..self.at + length].copy_from_slice(&piece[..length]),
        }
        self.at += length;
    }

    #[inline]
    fn name(&mut self, name: Name) {
        const { assert!(NAME_BYTES == 16) };
        self.front(&name.bytes.to_le_bytes(), name.length);
    }

    /// Writes cells, a comma before each, and a line feed.
    #[inline]
    fn cells<const WORDS: usize>(&mut self, cells: Set<WORDS>, count: usize) {
        for (index, word) in cells.words().iter().enumerate() {
            let count = count.saturating_sub(index * WORD_BITS).min(WORD_BITS);
            let mut done = 0;
            while done < count {
                let eight = &EIGHT_CELLS[(word >> done & 0xff) as usize];
                self.front(eight, 2 * (count - done).min(8));
                done += 8;
            }
        }
        self.byte(b'\n');
    }

    fn count(&mut self, count: usize) {
        if count >= 100 {
            self.byte(b'0' + (count / 100) as u8);
        }
        if count >= 10 {
            self.byte(b'0' + (count / 10 % 10) as u8);
        }
        self.byte(b'0' + (count % 10) as u8);
    }

    fn counts(&mut self, counts: &Counts) {
        self.bytes(COUNTS_HEADING.as_bytes());
        self.byte(b'\n');
        self.count(counts.roles);
        self.byte(b',');
        self.count(counts.bound);
        self.byte(b',');
        self.bytes(counts.state.word().as_bytes());
        self.byte(b'\n');
    }

    fn roles(&mut self, sheet: &Sheet, count: usize, matrices: &Matrices) {
        self.bytes(ROLE_HEADING.as_bytes());
        let permissions = sheet.permissions.count();
        for permission in 0..permissions {
            self.byte(b',');
            self.name(sheet.permissions.name(permission));
        }
        self.byte(b'\n');
        for (role, gives) in matrices.gives[..count].iter().enumerate() {
            self.bytes(role_name(role));
            self.cells(*gives, permissions);
        }
    }

    fn users(&mut self, sheet: &Sheet, count: usize, matrices: &Matrices) {
        self.bytes(USER_HEADING.as_bytes());
        self.bytes(role_fields(count));
        self.byte(b'\n');
        for (user, has) in matrices.has[..sheet.users.count()].iter().enumerate() {
            self.name(sheet.users.name(user));
            self.cells(*has, count);
        }
    }

    fn witness(&mut self, sheet: &Sheet, witness: &[Cell]) {
        self.bytes(WITNESS_HEADING.as_bytes());
        self.byte(b'\n');
        for cell in witness {
            self.name(sheet.users.name(user_of(*cell)));
            self.byte(b',');
            self.name(sheet.permissions.name(permission_of(*cell)));
            self.byte(b'\n');
        }
    }
}
