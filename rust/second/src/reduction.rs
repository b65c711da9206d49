//! The reduction: sweeps over the remaining grants until one of them removes nothing.

use crate::grants::{self, Grant, fits};
use crate::sheet::Sheet;

/// Why a grant was removed.
#[derive(Clone, Copy, Debug, PartialEq, Eq)]
pub enum Reason {
    /// No other remaining grant fitted it.
    Single,
    /// It dominated this one, the lowest such.
    Tied(Grant),
}

#[derive(Clone, Copy, Debug, PartialEq, Eq)]
pub struct Removal {
    pub grant: Grant,
    pub reason: Reason,
}

/// The removals in the order in which they were made, and the grants that remain.
#[derive(Clone, Debug, PartialEq, Eq)]
pub struct Reduction {
    pub removals: Vec<Removal>,
    pub kernel: Vec<Grant>,
}

impl Reduction {
    /// Sweeps the grants of the sheet until a sweep removes nothing.
    pub fn of(sheet: &Sheet) -> Reduction {
        let mut remaining = grants::all(sheet);
        let mut removals = Vec::new();
        loop {
            let removed = sweep(sheet, &mut remaining);
            if removed.is_empty() {
                break;
            }
            removals.extend(removed);
        }
        Reduction { removals, kernel: remaining }
    }

    /// The grants removed as single, in the order of removal.
    pub fn singles(&self) -> impl Iterator<Item = Grant> {
        self.removals.iter().filter(|removal| removal.reason == Reason::Single).map(|removal| removal.grant)
    }
}

/// One sweep in rising order. A removal counts at once for the grants visited after it.
fn sweep(sheet: &Sheet, remaining: &mut Vec<Grant>) -> Vec<Removal> {
    let visited = remaining.clone();
    let mut removed = Vec::new();
    for grant in visited {
        if let Some(reason) = reason_to_remove(sheet, remaining, grant) {
            remaining.retain(|other| *other != grant);
            removed.push(Removal { grant, reason });
        }
    }
    removed
}

/// Single comes before tied. A grant that it dominates fits it, so only its partners are asked.
fn reason_to_remove(sheet: &Sheet, remaining: &[Grant], grant: Grant) -> Option<Reason> {
    let partners: Vec<Grant> =
        remaining.iter().copied().filter(|other| *other != grant && fits(sheet, grant, *other)).collect();
    if partners.is_empty() {
        return Some(Reason::Single);
    }
    partners.into_iter().find(|partner| dominates(sheet, remaining, grant, *partner)).map(Reason::Tied)
}

/// The dominated grant and all remaining ones that fit it are the dominating grant or fit that.
fn dominates(sheet: &Sheet, remaining: &[Grant], dominating: Grant, dominated: Grant) -> bool {
    remaining
        .iter()
        .filter(|grant| fits(sheet, dominated, **grant))
        .all(|grant| *grant == dominating || fits(sheet, dominating, *grant))
}
