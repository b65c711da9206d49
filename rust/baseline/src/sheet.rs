//! Reading a sheet into rows, columns and names.

use second::limits::{GRANTS, NAME_BYTES, PERMISSIONS, SHEET_BYTES, USERS};
use second::refusal::Refusal;

use crate::causes::{is_name_byte, lowest_cause, lowest_of_longer};
use crate::names::{Name, Names};
use crate::sets::{Permissions, Set, Users, WORD_BITS};

/// Grants from which turning whole blocks is faster than turning one cell after another.
const MANY_GRANTS: usize = 256;

/// An accepted sheet, or, after a refusal, nothing that means anything.
#[derive(Clone, Debug)]
pub struct Sheet {
    pub grants: usize,
    /// The permissions that each user holds.
    pub rows: [Permissions; USERS],
    /// The users who hold each permission.
    pub columns: [Users; PERMISSIONS],
    pub users: Names<USERS, 512>,
    pub permissions: Names<PERMISSIONS, 256>,
}

impl Sheet {
    pub fn empty() -> Sheet {
        Sheet {
            grants: 0,
            rows: [Permissions::NONE; USERS],
            columns: [Users::NONE; PERMISSIONS],
            users: Names::none(),
            permissions: Names::none(),
        }
    }

    /// Reads a sheet into this one, or gives the lowest cause to refuse it.
    pub fn read(&mut self, bytes: &[u8]) -> Result<(), Refusal> {
        match self.read_acceptable(bytes) {
            Some(()) => Ok(()),
            None => Err(lowest_cause(bytes).expect("what cannot be read has a cause to be refused")),
        }
    }

    /// Reads a line to be put behind this sheet, which has these bytes, or gives the lowest cause to refuse the longer
    /// sheet but for the users' number and the name. Gives the name and what they hold.
    pub fn read_line(&self, bytes: &[u8], line: &[u8]) -> Result<(Name, Permissions), Refusal> {
        match self.read_acceptable_line(bytes, line) {
            Some(read) => Ok(read),
            None => {
                let cause = lowest_of_longer(bytes, self.grants, line);
                Err(cause.expect("what cannot be read has a cause to be refused"))
            }
        }
    }

    fn read_acceptable_line(&self, bytes: &[u8], line: &[u8]) -> Option<(Name, Permissions)> {
        let mut reader = Reader { bytes: line, at: 0 };
        let name = reader.name()?;
        let row = reader.cells(self.permissions.count())?;
        let is_within = bytes.len() + line.len() <= SHEET_BYTES && self.grants + row.count() <= GRANTS;
        (is_within && reader.at == line.len()).then_some((name, row))
    }

    /// Reads a sheet that no cause applies to, and stops at the first place where one does.
    fn read_acceptable(&mut self, bytes: &[u8]) -> Option<()> {
        if bytes.len() > SHEET_BYTES {
            return None;
        }
        let mut reader = Reader { bytes, at: 0 };
        self.read_first_line(&mut reader)?;
        self.users.clear();
        self.grants = 0;
        while reader.at < bytes.len() {
            self.read_user_line(&mut reader)?;
        }
        self.rows[self.users.count()..].fill(Permissions::NONE);
        self.turn();
        (self.users.count() > 0 && self.grants <= GRANTS).then_some(())
    }

    fn read_first_line(&mut self, reader: &mut Reader<'_>) -> Option<()> {
        reader.word(b"user,")?;
        self.permissions.clear();
        while reader.bytes[reader.at - 1] == b',' {
            let name = reader.name()?;
            self.permissions.add(name)?;
        }
        Some(())
    }

    fn read_user_line(&mut self, reader: &mut Reader<'_>) -> Option<()> {
        let user = self.users.count();
        let name = reader.name()?;
        self.users.add(name)?;
        let row = reader.cells(self.permissions.count())?;
        self.rows[user] = row;
        self.grants += row.count();
        Some(())
    }

    #[inline]
    pub fn holds(&self, user: usize, permission: usize) -> bool {
        self.rows[user].has(permission)
    }

    /// The set of all permissions of the sheet.
    #[inline]
    pub fn all_permissions(&self) -> Permissions {
        Permissions::below(self.permissions.count())
    }

    /// Makes the columns from the rows.
    fn turn(&mut self) {
        self.columns.fill(Users::NONE);
        let rows = &self.rows[..self.users.count()];
        if self.grants < MANY_GRANTS {
            for (user, row) in rows.iter().enumerate() {
                row.iter().for_each(|permission| self.columns[permission].add(user));
            }
            return;
        }
        let user_words = self.users.count().div_ceil(WORD_BITS);
        let permission_words = self.permissions.count().div_ceil(WORD_BITS);
        for (index, block) in self.rows.as_chunks::<WORD_BITS>().0[..user_words].iter().enumerate() {
            let columns = self.columns.as_chunks_mut::<WORD_BITS>().0[..permission_words].iter_mut();
            for (place, columns) in columns.enumerate() {
                let turned = turned(block.each_ref().map(|row| row.words()[place]));
                for (column, word) in columns.iter_mut().zip(turned) {
                    *column.word_mut(index) = word;
                }
            }
        }
    }
}

/// Bit i of word j becomes bit j of word i: halves change places, then quarters, and so on.
fn turned(mut block: [u64; WORD_BITS]) -> [u64; WORD_BITS] {
    let mut width = WORD_BITS / 2;
    let mut low = u64::MAX >> width;
    while width > 0 {
        for first in (0..WORD_BITS).filter(|index| index & width == 0) {
            let swapped = (block[first] >> width ^ block[first + width]) & low;
            block[first] ^= swapped << width;
            block[first + width] ^= swapped;
        }
        width /= 2;
        low ^= low << width;
    }
    block
}

/// Bytes, and how far they are read.
pub struct Reader<'a> {
    pub bytes: &'a [u8],
    pub at: usize,
}

/// What each byte can be part of.
const KINDS: [Kind; 256] = {
    let mut kinds = [Kind::Other; 256];
    let mut byte = 0;
    while byte < 256 {
        if is_name_byte(byte as u8) {
            kinds[byte] = Kind::Name;
        }
        byte += 1;
    }
    kinds[b',' as usize] = Kind::Separator;
    kinds[b'\n' as usize] = Kind::Separator;
    kinds
};

#[derive(Clone, Copy, PartialEq, Eq)]
enum Kind {
    Name,
    Separator,
    Other,
}

/// Four cells that are `0`, with a comma behind each.
const FOUR_CELLS: u64 = u64::from_le_bytes(*b"0,0,0,0,");

/// The bits in which four cells can differ from that.
const CELL_BITS: u64 = 0x0001_0001_0001_0001;

/// Takes those bits to four neighbouring places from place 48 on.
const GATHER: u64 = 1 << 48 | 1 << 33 | 1 << 18 | 1 << 3;

/// Bytes of the cells of a word, each with a comma.
const WORD_TEXT: usize = 2 * WORD_BITS;

impl Reader<'_> {
    /// Reads these bytes.
    #[inline]
    pub fn word(&mut self, word: &[u8]) -> Option<()> {
        let rest = self.bytes.get(self.at..)?;
        self.at += word.len();
        rest.starts_with(word).then_some(())
    }

    /// Reads these bytes, with `A-Z` read as `a-z`.
    #[inline]
    pub fn word_in_any_case(&mut self, word: &[u8]) -> Option<()> {
        let bytes = self.bytes.get(self.at..self.at + word.len())?;
        self.at += word.len();
        bytes.eq_ignore_ascii_case(word).then_some(())
    }

    /// Reads a name and the separator behind it.
    #[inline]
    pub fn name(&mut self) -> Option<Name> {
        let from = self.at;
        let most = self.bytes.len().min(from + NAME_BYTES + 1);
        let mut end = from;
        while end < most && KINDS[usize::from(self.bytes[end])] == Kind::Name {
            end += 1;
        }
        if end == from || end == most || KINDS[usize::from(self.bytes[end])] != Kind::Separator {
            return None;
        }
        self.at = end + 1;
        Some(Name::at(self.bytes, from, end - from))
    }

    /// Reads a name and this separator behind it.
    #[inline]
    pub fn name_before(&mut self, separator: u8) -> Option<Name> {
        let name = self.name()?;
        (self.bytes[self.at - 1] == separator).then_some(name)
    }

    /// Reads the cells of a line from behind the comma before the first to behind its line feed.
    #[inline]
    pub fn cells<const WORDS: usize>(&mut self, count: usize) -> Option<Set<WORDS>> {
        let mut row = Set::NONE;
        if count == 0 || self.bytes[self.at - 1] != b',' {
            return (count == 0 && self.bytes[self.at - 1] == b'\n').then_some(row);
        }
        let text = self.bytes.get(self.at..self.at + 2 * count)?;
        self.at += 2 * count;
        let quarters = (count - 1) / 4;
        let (whole, rest) = text.split_at(8 * quarters);
        for (index, word) in whole.chunks(WORD_TEXT).enumerate() {
            *row.word_mut(index) = whole_fours(word)?;
        }
        for (index, cell) in rest.as_chunks::<2>().0.iter().enumerate() {
            let place = 4 * quarters + index;
            let separator = if place + 1 == count { b'\n' } else { b',' };
            if !matches!(cell[0], b'0' | b'1') || cell[1] != separator {
                return None;
            }
            *row.word_mut(place / WORD_BITS) |= u64::from(cell[0] - b'0') << (place % WORD_BITS);
        }
        Some(row)
    }
}

/// The cells of a word, read four at a time, each with a comma behind it.
#[inline]
fn whole_fours(text: &[u8]) -> Option<u64> {
    let mut word = 0;
    for (index, four) in text.as_chunks::<8>().0.iter().enumerate() {
        let differing = u64::from_le_bytes(*four) ^ FOUR_CELLS;
        if differing & !CELL_BITS != 0 {
            return None;
        }
        word |= (differing.wrapping_mul(GATHER) >> 48 & 15) << (4 * index);
    }
    Some(word)
}

/// A cell of the sheet in one number: the rows follow each other, each with room for all permissions.
pub type Cell = u16;

#[inline]
pub fn cell(user: usize, permission: usize) -> Cell {
    (user * PERMISSIONS + permission) as Cell
}

#[inline]
pub fn user_of(cell: Cell) -> usize {
    usize::from(cell) / PERMISSIONS
}

#[inline]
pub fn permission_of(cell: Cell) -> usize {
    usize::from(cell) % PERMISSIONS
}
