//! The kernel in grant order, and where every other grant belongs.

use second::limits::{GRANTS, PERMISSIONS, USERS};

use crate::reduction::Reduction;
use crate::sheet::{Cell, Sheet, cell};

/// The kernel's cells by number. Each grant goes with a root: a kernel grant with itself, a single with itself,
/// a tied grant with its partner's. Kernel roots are kernel numbers; single ones follow.
#[derive(Clone, Debug)]
pub struct Kernel {
    pub count: usize,
    pub cells: [Cell; GRANTS],
    /// The root of each cell that is a grant; other cells have any.
    roots: [u16; USERS * PERMISSIONS],
    /// The root of each grant by number.
    pub grant_roots: [u16; GRANTS],
}

impl Kernel {
    pub fn none() -> Kernel {
        Kernel { count: 0, cells: [0; GRANTS], roots: [0; USERS * PERMISSIONS], grant_roots: [0; GRANTS] }
    }

    pub fn list(&mut self, sheet: &Sheet, reduction: &Reduction) {
        self.list_kernel(sheet, reduction);
        self.take_removals_back(reduction);
        let mut number = 0;
        for (user, row) in sheet.rows[..sheet.users.count()].iter().enumerate() {
            row.iter().for_each(|permission| {
                self.grant_roots[number] = self.roots[usize::from(cell(user, permission))];
                number += 1;
            });
        }
    }

    fn list_kernel(&mut self, sheet: &Sheet, reduction: &Reduction) {
        self.count = 0;
        for (user, row) in reduction.rows[..sheet.users.count()].iter().enumerate() {
            row.iter().for_each(|permission| {
                let cell = cell(user, permission);
                self.cells[self.count] = cell;
                self.roots[usize::from(cell)] = self.count as u16;
                self.count += 1;
            });
        }
    }

    fn take_removals_back(&mut self, reduction: &Reduction) {
        let mut next = self.count as u16;
        for (removed, partner) in reduction.removals().rev() {
            self.roots[usize::from(*removed)] = if removed == partner {
                next += 1;
                next - 1
            } else {
                self.roots[usize::from(*partner)]
            };
        }
    }

    /// The cells that there are.
    pub fn cells(&self) -> &[Cell] {
        &self.cells[..self.count]
    }

    /// The number of a kernel grant.
    #[inline]
    pub fn number(&self, user: usize, permission: usize) -> usize {
        usize::from(self.roots[usize::from(cell(user, permission))])
    }
}
