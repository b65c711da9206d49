//! Grants (the edges between users and permissions) and when two of them fit (are adjacent in the edge dual).

use crate::sheet::{Permission, Sheet, User};

/// A one of the sheet. The order of these pairs, by user and then by permission, is the order of the grant
/// numbers.
#[derive(Clone, Copy, Debug, PartialEq, Eq, PartialOrd, Ord, Hash)]
pub struct Grant {
    pub user: User,
    pub permission: Permission,
}

/// All grants of the sheet in rising order.
pub fn all(sheet: &Sheet) -> Vec<Grant> {
    sheet
        .users()
        .flat_map(|user| sheet.permissions().map(move |permission| Grant { user, permission }))
        .filter(|grant| is_held(sheet, *grant))
        .collect()
}

/// Whether the pair is a one of the sheet.
pub fn is_held(sheet: &Sheet, grant: Grant) -> bool {
    sheet.holds(grant.user, grant.permission)
}

/// Each of the two users holds the other grant's permission in the whole sheet. A grant fits itself.
pub fn fits(sheet: &Sheet, one: Grant, other: Grant) -> bool {
    sheet.holds(one.user, other.permission) && sheet.holds(other.user, one.permission)
}
