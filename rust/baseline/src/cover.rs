//! The first cover. A class is known by its users and its permissions: a grant fits all its members if its row
//! has all the permissions and its column all the users.

use second::limits::{GRANTS, PERMISSIONS, USERS};

use crate::kernel::Kernel;
use crate::sets::{Permissions, Roles};
use crate::sheet::{Sheet, permission_of, user_of};

/// A class for each kernel grant by number. There are never more than permissions.
#[derive(Clone, Debug)]
pub struct Placement {
    pub count: usize,
    pub classes: [u8; GRANTS],
}

impl Placement {
    pub fn none() -> Placement {
        Placement { count: 0, classes: [0; GRANTS] }
    }

    /// The grouping with the fewest classes, the earlier on a tie. Grouping by fit never needs more classes than
    /// there are users: any two grants of one user fit, so that of a user's grants that can join no earlier class
    /// one opens a class and the others join it. So grouping by user is never the best.
    pub fn find_first_best(&mut self, sheet: &Sheet, kernel: &Kernel) {
        let mut permissions = Permissions::NONE;
        kernel.cells().iter().for_each(|cell| permissions.add(permission_of(*cell)));
        if self.group_by_fit(sheet, kernel, permissions.count()).is_none() {
            self.group_by_permission(kernel);
        }
    }

    /// Each grant goes into the lowest class whose members it all fits; nothing comes of it if that needs more
    /// than so many classes.
    fn group_by_fit(&mut self, sheet: &Sheet, kernel: &Kernel, most: usize) -> Option<()> {
        let mut groups = Groups::none();
        let permissions = sheet.all_permissions();
        self.count = 0;
        let mut number = 0;
        while number < kernel.count {
            let user = user_of(kernel.cells[number]);
            let row = sheet.rows[user];
            let lacked = permissions.minus(row);
            let barred = groups.barred_to(lacked);
            while number < kernel.count && user_of(kernel.cells[number]) == user {
                let permission = permission_of(kernel.cells[number]);
                let class = barred.or(groups.by_permission[permission]).lowest_missing();
                if class >= most {
                    return None;
                }
                self.count = self.count.max(class + 1);
                self.classes[number] = class as u8;
                groups.add(class, user, permission, lacked);
                number += 1;
            }
        }
        Some(())
    }

    fn group_by_permission(&mut self, kernel: &Kernel) {
        let mut class_of = [None; PERMISSIONS];
        self.count = 0;
        for (class, cell) in self.classes.iter_mut().zip(kernel.cells()) {
            *class = *class_of[permission_of(*cell)].get_or_insert_with(|| {
                self.count += 1;
                (self.count - 1) as u8
            });
        }
    }
}

/// Sets of classes, a bit for each.
struct Groups {
    /// The classes with a member of this permission.
    of_permission: [Roles; PERMISSIONS],
    /// The classes with a member of this user.
    of_user: [Roles; USERS],
    /// The classes with a member whose user lacks this permission.
    by_permission: [Roles; PERMISSIONS],
}

impl Groups {
    fn none() -> Groups {
        Groups {
            of_permission: [Roles::NONE; PERMISSIONS],
            of_user: [Roles::NONE; USERS],
            by_permission: [Roles::NONE; PERMISSIONS],
        }
    }

    /// The classes that are barred to a user who lacks these permissions.
    fn barred_to(&self, lacked: Permissions) -> Roles {
        lacked.iter().fold(Roles::NONE, |classes, permission| classes.or(self.of_permission[permission]))
    }

    #[inline]
    fn add(&mut self, class: usize, user: usize, permission: usize, lacked: Permissions) {
        self.of_permission[permission].add(class);
        if !self.of_user[user].has(class) {
            self.of_user[user].add(class);
            lacked.iter().for_each(|other| self.by_permission[other].add(class));
        }
    }
}
