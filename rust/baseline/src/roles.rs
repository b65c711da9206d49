//! The two matrices, and how the roles are named.

use second::limits::{ROLES, USERS};

use crate::cover::Placement;
use crate::kernel::Kernel;
use crate::sets::{Permissions, Roles};
use crate::sheet::Sheet;

/// Who has which role, and what each role gives.
pub struct Matrices {
    pub has: [Roles; USERS],
    pub gives: [Permissions; ROLES],
}

/// More classes than there can be.
const NO_ROLE: u8 = u8::MAX;

impl Matrices {
    pub fn none() -> Matrices {
        Matrices { has: [Roles::NONE; USERS], gives: [Permissions::NONE; ROLES] }
    }

    /// Roles are numbered by their lowest grants.
    pub fn of(sheet: &Sheet, kernel: &Kernel, best: &Placement) -> Matrices {
        let mut matrices = Matrices::none();
        let mut role_of = [NO_ROLE; ROLES];
        let mut roles = 0;
        let mut number = 0;
        for (row, has) in sheet.rows[..sheet.users.count()].iter().zip(&mut matrices.has) {
            row.iter().for_each(|permission| {
                let class = class_of(usize::from(kernel.grant_roots[number]), kernel, best);
                if role_of[class] == NO_ROLE {
                    role_of[class] = roles;
                    roles += 1;
                }
                let role = usize::from(role_of[class]);
                has.add(role);
                matrices.gives[role].add(permission);
                number += 1;
            });
        }
        matrices
    }
}

/// The class of a root; singles come behind the kernel's classes.
#[inline]
fn class_of(root: usize, kernel: &Kernel, best: &Placement) -> usize {
    if root < kernel.count { usize::from(best.classes[root]) } else { best.count + root - kernel.count }
}

/// The names of all roles, a comma before each.
const ROLE_FIELDS: [u8; 5 * ROLES] = {
    let mut fields = [0; 5 * ROLES];
    let mut at = 0;
    let mut role = 1;
    while role <= ROLES {
        fields[at] = b',';
        fields[at + 1] = b'R';
        at += 2;
        if role >= 100 {
            fields[at] = b'0' + (role / 100) as u8;
            at += 1;
        }
        if role >= 10 {
            fields[at] = b'0' + (role / 10 % 10) as u8;
            at += 1;
        }
        fields[at] = b'0' + (role % 10) as u8;
        at += 1;
        role += 1;
    }
    fields
};

/// The names of so many roles, a comma before each.
#[inline]
pub fn role_fields(count: usize) -> &'static [u8] {
    &ROLE_FIELDS[..fields_length(count)]
}

/// The name of the role with this index from 0.
#[inline]
pub fn role_name(index: usize) -> &'static [u8] {
    &ROLE_FIELDS[fields_length(index) + 1..fields_length(index + 1)]
}

/// Roles from the tenth on have a byte more, and those from the hundredth on one more still.
#[inline]
pub fn fields_length(count: usize) -> usize {
    3 * count + count.saturating_sub(9) + count.saturating_sub(99)
}
