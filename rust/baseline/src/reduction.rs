//! The reduction, judged a word at a time.
//!
//! A grant (v, q) fits (u, p) if v is in p's column and q in u's row. So the grants that fit (v, q) are in the
//! rows of q's column and in the columns of v's row, and (u, p) dominates (v, q) if
//! - each user of q's column with a remaining grant in v's row is in p's column, and
//! - no such user has one in v's row outside u's row.

use second::limits::{GRANTS, PERMISSIONS, USERS};

use crate::sets::{Permissions, Users};
use crate::sheet::{Cell, Sheet, cell, user_of};

/// The removals in order, and what remains.
#[derive(Clone, Debug)]
pub struct Reduction {
    count: usize,
    pub single_count: usize,
    removed: [Cell; GRANTS],
    /// What each removed grant was tied to; a single has itself.
    partner: [Cell; GRANTS],
    /// The remaining grants by user and by permission.
    pub rows: [Permissions; USERS],
    pub columns: [Users; PERMISSIONS],
}

/// A user whose grants are being judged.
struct Visit {
    user: usize,
    row: Permissions,
    /// The users with a remaining grant in the row.
    near: Users,
    /// Those of them who have no other remaining grant.
    inside: Users,
}

impl Reduction {
    pub fn none() -> Reduction {
        Reduction {
            count: 0,
            single_count: 0,
            removed: [0; GRANTS],
            partner: [0; GRANTS],
            rows: [Permissions::NONE; USERS],
            columns: [Users::NONE; PERMISSIONS],
        }
    }

    /// Each removed grant with its partner, in the order of removal.
    pub fn removals(&self) -> impl DoubleEndedIterator<Item = (&Cell, &Cell)> {
        self.removed[..self.count].iter().zip(&self.partner[..self.count])
    }

    /// Sweeps all grants of the sheet until a sweep removes nothing. What was visited behind the last removal
    /// needs no second visit.
    pub fn reduce(&mut self, sheet: &Sheet) {
        self.count = 0;
        self.single_count = 0;
        self.rows = sheet.rows;
        self.columns = sheet.columns;
        let mut last = USERS;
        while let Some(user) = self.sweep(sheet, last) {
            last = user;
        }
    }

    /// Gives the user of the last removal.
    fn sweep(&mut self, sheet: &Sheet, last: usize) -> Option<usize> {
        let before = self.count;
        for user in 0..sheet.users.count() {
            if self.count == before && user > last {
                return None;
            }
            if !self.rows[user].is_empty() {
                self.visit(sheet, user);
            }
        }
        (self.count > before).then(|| user_of(self.removed[self.count - 1]))
    }

    /// Judges the remaining grants of a user. Removing one of them changes neither `near` nor `inside` for
    /// other users.
    fn visit(&mut self, sheet: &Sheet, user: usize) {
        let row = sheet.rows[user];
        let near = self.users_of(row);
        let inside = near.only_those(|other| self.rows[other].minus(row).is_empty());
        let visit = Visit { user, row, near, inside };
        self.rows[user].iter().for_each(|permission| {
            if self.is_single(sheet, &visit, permission) {
                self.single_count += 1;
                self.remove(user, permission, cell(user, permission));
            } else if let Some(partner) = self.dominated(sheet, &visit, permission) {
                self.remove(user, permission, partner);
            }
        });
    }

    /// The users with a remaining grant in a row.
    #[inline]
    fn users_of(&self, row: Permissions) -> Users {
        row.iter().fold(Users::NONE, |all, place| all.or(self.columns[place]))
    }

    #[inline]
    fn is_single(&self, sheet: &Sheet, visit: &Visit, permission: usize) -> bool {
        if self.rows[visit.user] != Permissions::only(permission) {
            return false;
        }
        let mut others = visit.near.and(sheet.columns[permission]);
        others.remove(visit.user);
        others.is_empty()
    }

    fn remove(&mut self, user: usize, permission: usize, partner: Cell) {
        self.rows[user].remove(permission);
        self.columns[permission].remove(user);
        self.removed[self.count] = cell(user, permission);
        self.partner[self.count] = partner;
        self.count += 1;
    }

    /// The lowest other remaining grant that this one dominates. All remaining grants of its user are in the
    /// visited row, since they fit it.
    #[inline]
    fn dominated(&self, sheet: &Sheet, visit: &Visit, permission: usize) -> Option<Cell> {
        let column = sheet.columns[permission];
        visit.inside.and(column).iter().find_map(|other| {
            if other == visit.user {
                let candidates = self.rows[other].minus(Permissions::only(permission));
                return lowest_apart(sheet, other, candidates, visit.near.minus(column));
            }
            let (near, beyond) = self.users_of_other(sheet.rows[other], visit.row);
            lowest_apart(sheet, other, self.rows[other], near.minus(column).or(beyond))
        })
    }

    /// The users with remaining grants in another's row, and those with some in it outside the visited row.
    fn users_of_other(&self, other: Permissions, row: Permissions) -> (Users, Users) {
        let beyond = self.users_of(other.minus(row));
        (self.users_of(other.and(row)).or(beyond), beyond)
    }
}

/// The lowest grant of a user among these permissions, none of whose holders is one of these users.
#[inline]
fn lowest_apart(sheet: &Sheet, user: usize, candidates: Permissions, users: Users) -> Option<Cell> {
    let mut left = candidates;
    users.any(|other| {
        left = left.minus(sheet.rows[other]);
        left.is_empty()
    });
    left.iter().next().map(|permission| cell(user, permission))
}
