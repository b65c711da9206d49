//! The witness: partner counts of the kernel grants are kept up to date as grants are closed to choice.

use second::limits::{GRANTS, PERMISSIONS, USERS};

use crate::kernel::Kernel;
use crate::reduction::Reduction;
use crate::sets::{Permissions, Users, WORD_BITS};
use crate::sheet::{Cell, Sheet, permission_of, user_of};

/// The count of a grant that is closed to choice.
const CLOSED: i16 = i16::MAX;

/// The most grants that no two of which fit: each needs a role of its own.
const MOST: usize = PERMISSIONS;

/// From this many pairs for each grant on, counting by rows is faster than counting pairs.
const MANY_PAIRS: usize = 2;

/// The witness in grant order, and room to find it.
#[derive(Clone, Debug)]
pub struct Witness {
    pub count: usize,
    cells: [Cell; MOST],
    /// How many open grants fit each kernel grant, itself among them.
    partners: [i16; GRANTS],
    /// The grants open to choice by user.
    open: [Permissions; USERS],
    /// The grants that were closed last, by user.
    closed: [Permissions; USERS],
}

impl Witness {
    pub fn none() -> Witness {
        Witness {
            count: 0,
            cells: [0; MOST],
            partners: [0; GRANTS],
            open: [Permissions::NONE; USERS],
            closed: [Permissions::NONE; USERS],
        }
    }

    pub fn cells(&self) -> &[Cell] {
        &self.cells[..self.count]
    }

    /// Takes from the kernel, adds the singles and sorts.
    pub fn find(&mut self, sheet: &Sheet, reduction: &Reduction, kernel: &Kernel) {
        self.count = 0;
        if kernel.count > 0 {
            self.open = reduction.rows;
            self.count_partners(sheet, reduction, kernel);
            while let Some(number) = self.fewest(kernel.count) {
                self.take(sheet, kernel, number);
            }
        }
        for (removed, partner) in reduction.removals() {
            if removed == partner {
                self.add(*removed);
            }
        }
        self.cells[..self.count].sort_unstable();
    }

    fn add(&mut self, cell: Cell) {
        self.cells[self.count] = cell;
        self.count += 1;
    }

    fn count_partners(&mut self, sheet: &Sheet, reduction: &Reduction, kernel: &Kernel) {
        let mut number = 0;
        while number < kernel.count {
            let user = user_of(kernel.cells[number]);
            let counted = Counted::of(sheet.rows[user], &reduction.columns, sheet.users.count());
            self.open[user].iter().for_each(|permission| {
                self.partners[number] = counted.sum(sheet.columns[permission]);
                number += 1;
            });
        }
    }

    /// The lowest of the open grants with the fewest partners, found piece by piece.
    fn fewest(&self, count: usize) -> Option<usize> {
        const PIECE: usize = 64;
        let mut fewest = CLOSED;
        let mut piece = 0;
        for (index, partners) in self.partners[..count].chunks(PIECE).enumerate() {
            let lowest = partners.iter().copied().fold(CLOSED, i16::min);
            if lowest < fewest {
                (fewest, piece) = (lowest, index);
            }
        }
        if fewest == CLOSED {
            return None;
        }
        let place = self.partners[piece * PIECE..].iter().position(|own| *own == fewest)?;
        Some(piece * PIECE + place)
    }

    /// Takes a grant and closes it and its partners to choice.
    fn take(&mut self, sheet: &Sheet, kernel: &Kernel, number: usize) {
        let taken = kernel.cells[number];
        self.add(taken);
        let row = sheet.rows[user_of(taken)];
        let mut users = Users::NONE;
        let mut pairs = 0;
        sheet.columns[permission_of(taken)].iter().for_each(|user| {
            let closed = self.open[user].and(row);
            self.closed[user] = closed;
            self.open[user] = self.open[user].minus(closed);
            if !closed.is_empty() {
                users.add(user);
            }
            closed.iter().for_each(|permission| {
                let partners = &mut self.partners[kernel.number(user, permission)];
                pairs += *partners as usize;
                *partners = CLOSED;
            });
        });
        if pairs <= MANY_PAIRS * kernel.count {
            self.discount_pairs(sheet, kernel, users);
        } else {
            self.discount_rows(sheet, kernel, users);
        }
    }

    /// Takes the closed grants off the counts of the open ones, one pair after another.
    fn discount_pairs(&mut self, sheet: &Sheet, kernel: &Kernel, users: Users) {
        users.iter().for_each(|user| {
            let row = sheet.rows[user];
            self.closed[user].iter().for_each(|permission| {
                sheet.columns[permission].iter().for_each(|other| {
                    self.open[other].and(row).iter().for_each(|partner| {
                        self.partners[kernel.number(other, partner)] -= 1;
                    });
                });
            });
        });
    }

    /// Takes the closed grants off the counts of the open ones, one user after another.
    fn discount_rows(&mut self, sheet: &Sheet, kernel: &Kernel, users: Users) {
        for user in 0..sheet.users.count() {
            if !self.open[user].is_empty() {
                let listed = Listed::of(sheet.rows[user], users, &self.closed);
                self.open[user].iter().for_each(|permission| {
                    let count = listed.sum(sheet.columns[permission]);
                    self.partners[kernel.number(user, permission)] -= count;
                });
            }
        }
    }
}

/// How many grants of each user are in one row, bit by bit: the users whose number has that bit.
struct Counted {
    bits: [Users; COUNT_BITS],
    used: usize,
    words: usize,
}

/// Bits of the number of grants that a user can have.
const COUNT_BITS: usize = PERMISSIONS.ilog2() as usize + 1;

impl Counted {
    /// Adds the columns of the row, carrying over.
    #[inline]
    fn of(row: Permissions, columns: &[Users; PERMISSIONS], users: usize) -> Counted {
        let words = users.div_ceil(WORD_BITS);
        let mut counted = Counted { bits: [Users::NONE; COUNT_BITS], used: 0, words };
        row.iter().for_each(|permission| {
            let mut carried = columns[permission];
            let mut index = 0;
            while !carried.is_empty() {
                let bit = &mut counted.bits[index];
                let both = bit.and(carried);
                *bit = bit.xor(carried);
                carried = both;
                index += 1;
            }
            counted.used = counted.used.max(index);
        });
        counted
    }

    /// The grants of the users of a column.
    #[inline]
    fn sum(&self, column: Users) -> i16 {
        let bits = self.bits[..self.used].iter().enumerate();
        bits.map(|(index, users)| (users.and(column).count_below(self.words) as i16) << index).sum()
    }
}

/// How many grants of each user are in one row, with the users who have any.
struct Listed {
    users: Users,
    counts: [u8; USERS],
}

impl Listed {
    #[inline]
    fn of(row: Permissions, users: Users, grants: &[Permissions; USERS]) -> Listed {
        let mut listed = Listed { users: Users::NONE, counts: [0; USERS] };
        users.iter().for_each(|user| {
            let common = grants[user].and(row);
            if !common.is_empty() {
                listed.users.add(user);
                listed.counts[user] = common.count() as u8;
            }
        });
        listed
    }

    /// The grants of the users of a column.
    #[inline]
    fn sum(&self, column: Users) -> i16 {
        self.users.and(column).iter().map(|user| i16::from(self.counts[user])).sum()
    }
}
