//! The witness (an independent set of the edge dual): grants no two of which fit.

use crate::grants::{Grant, fits};
use crate::reduction::Reduction;
use crate::sheet::Sheet;

/// The grants taken from the kernel and all singles, in grant order.
pub fn of(sheet: &Sheet, reduction: &Reduction) -> Vec<Grant> {
    let mut witness = taken_from(sheet, &reduction.kernel);
    witness.extend(reduction.singles());
    witness.sort();
    witness
}

/// Takes, again and again, the grant with the fewest partners among those still open to choice, the lowest on
/// a tie, and closes it and those partners to choice.
fn taken_from(sheet: &Sheet, kernel: &[Grant]) -> Vec<Grant> {
    let mut open = kernel.to_vec();
    let mut taken = Vec::new();
    while let Some(next) = with_fewest_partners(sheet, &open) {
        open.retain(|grant| !fits(sheet, next, *grant));
        taken.push(next);
    }
    taken
}

fn with_fewest_partners(sheet: &Sheet, open: &[Grant]) -> Option<Grant> {
    open.iter().copied().min_by_key(|grant| (partner_count(sheet, open, *grant), *grant))
}

fn partner_count(sheet: &Sheet, open: &[Grant], grant: Grant) -> usize {
    open.iter().filter(|other| **other != grant && fits(sheet, grant, **other)).count()
}
