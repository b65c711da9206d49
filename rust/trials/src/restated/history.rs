//! What a session has, found from the calls made on it and never from the session.

use std::ops::Range;

use second::script::Call;

use crate::restated::causes::lowest_cause;
use crate::restated::newcomer;

/// The last accepted sheet, and what was given for it.
#[derive(Clone, Copy, Debug, PartialEq, Eq)]
pub struct Known<'a> {
    pub sheet: &'a [u8],
    /// The sum of the budgets since the first reduction after that load, each counted whole; none where there was no
    /// reduction yet.
    pub budgets: Option<u64>,
}

/// What is known after these calls on a fresh session, if a sheet was accepted.
pub fn known(calls: &[Call]) -> Option<Known<'_>> {
    let last = calls.iter().rposition(is_accepted_load)?;
    let Call::Load(sheet) = &calls[last] else { return None };
    let since = &calls[last..];
    let reduction = since.iter().position(|call| *call == Call::Reduce);
    let budgets = reduction.map(|first| since[first..].iter().map(budget).sum());
    Some(Known { sheet, budgets })
}

/// The numbers of the steps that the last of these calls, if it is an accepted search, may make. The steps since the
/// first reduction are numbered from 0, and the budgets before are spent on those before; fewer steps are made where
/// the search ends first.
pub fn last_steps(calls: &[Call]) -> Option<Range<u64>> {
    let end = known(calls)?.budgets?;
    Some(end - budget(calls.last()?)..end)
}

/// The number of the refusal of this call, made after those, unless it is that of a writing into too short a buffer or
/// one of a check: the first in the call's order that applies.
pub fn number(calls: &[Call], call: &Call) -> Option<u32> {
    let known = known(calls);
    let causes = [(10, known.is_none()), (16, known.is_some_and(|known| known.budgets.is_none()))];
    let applied = match call {
        Call::Load(sheet) => return lowest_cause(sheet),
        Call::Check { .. } => return None,
        Call::Newcomer { sheet, book, line, length } => {
            return newcomer::answer(sheet, book, line, *length).err();
        }
        Call::Reduce => &causes[..1],
        Call::Search(_) | Call::Write(_) => &causes[..],
    };
    applied.iter().find(|(_, applies)| *applies).map(|(number, _)| *number)
}

fn is_accepted_load(call: &Call) -> bool {
    matches!(call, Call::Load(sheet) if lowest_cause(sheet).is_none())
}

/// The budget that the call gives, 0 if it is no search.
fn budget(call: &Call) -> u64 {
    if let Call::Search(budget) = call { u64::from(*budget) } else { 0 }
}
