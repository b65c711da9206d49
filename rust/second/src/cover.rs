//! The first cover: three groupings of the kernel, of which the smallest is the first best.

use crate::grants::{Grant, fits};
use crate::sheet::Sheet;

/// A class for each kernel grant in grant order; any two grants of one class (a biclique) fit. Classes are
/// numbered from 0 by first appearance.
#[derive(Clone, Debug, PartialEq, Eq)]
pub struct Placement {
    pub classes: Vec<usize>,
    pub count: usize,
}

/// The grouping with the fewest classes, the earlier one on a tie.
pub fn first_best(sheet: &Sheet, kernel: &[Grant]) -> Placement {
    groupings(sheet, kernel)
        .into_iter()
        .min_by_key(|placement| placement.count)
        .expect("there are three groupings")
}

/// The three groupings in the order in which they are named.
pub fn groupings(sheet: &Sheet, kernel: &[Grant]) -> [Placement; 3] {
    [
        by_first_fit(sheet, kernel),
        by_key(kernel, |grant| grant.permission),
        by_key(kernel, |grant| grant.user),
    ]
}

/// Each grant goes into the lowest class whose members it all fits, else into a new one.
fn by_first_fit(sheet: &Sheet, kernel: &[Grant]) -> Placement {
    let mut members: Vec<Vec<Grant>> = Vec::new();
    let mut classes = Vec::new();
    for grant in kernel {
        let fitting =
            members.iter().position(|class| class.iter().all(|member| fits(sheet, *member, *grant)));
        let class = fitting.unwrap_or(members.len());
        if class == members.len() {
            members.push(Vec::new());
        }
        members[class].push(*grant);
        classes.push(class);
    }
    Placement { classes, count: members.len() }
}

/// Grants of one key go into one class.
fn by_key<Key: PartialEq>(kernel: &[Grant], key_of: impl Fn(&Grant) -> Key) -> Placement {
    let mut keys: Vec<Key> = Vec::new();
    let mut classes = Vec::new();
    for grant in kernel {
        let key = key_of(grant);
        let known = keys.iter().position(|other| *other == key);
        classes.push(known.unwrap_or(keys.len()));
        if known.is_none() {
            keys.push(key);
        }
    }
    Placement { classes, count: keys.len() }
}
