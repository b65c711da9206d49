//! From classes of the kernel to roles for the whole sheet, and what is known about their number.

use std::collections::{BTreeMap, BTreeSet};

use crate::cover::Placement;
use crate::grants::Grant;
use crate::reduction::{Reason, Reduction};
use crate::sheet::{Permission, User};

/// The users and the permissions of the grants of one class.
#[derive(Clone, Debug, Default, PartialEq, Eq)]
pub struct Role {
    pub users: BTreeSet<User>,
    pub permissions: BTreeSet<Permission>,
}

/// How much is known about the number of roles.
#[derive(Clone, Copy, Debug, PartialEq, Eq, Hash)]
pub enum State {
    /// As many witness grants as roles: there is no smaller role set.
    Witnessed,
    /// The search is finished: there is no smaller role set.
    Searched,
    /// There may be a smaller role set.
    Open,
}

impl State {
    pub const ALL: [State; 3] = [State::Witnessed, State::Searched, State::Open];

    pub fn of(role_count: usize, witness_count: usize, finished: bool) -> State {
        if role_count == witness_count {
            State::Witnessed
        } else if finished {
            State::Searched
        } else {
            State::Open
        }
    }

    pub fn word(self) -> &'static str {
        match self {
            State::Witnessed => "witnessed",
            State::Searched => "searched",
            State::Open => "open",
        }
    }

    /// What every role set has at least.
    pub fn bound(self, role_count: usize, witness_count: usize) -> usize {
        match self {
            State::Open => witness_count,
            State::Witnessed | State::Searched => role_count,
        }
    }
}

/// The roles in the order of their lowest grants.
pub fn roles(reduction: &Reduction, placement: &Placement) -> Vec<Role> {
    classes(reduction, placement).iter().map(role).collect()
}

/// The classes of all grants in the order of their lowest grants: the kernel's classes, and each removal
/// taken back, the last first.
pub fn classes(reduction: &Reduction, placement: &Placement) -> Vec<BTreeSet<Grant>> {
    let mut class_of: BTreeMap<Grant, usize> =
        reduction.kernel.iter().copied().zip(placement.classes.iter().copied()).collect();
    let mut count = placement.count;
    for removal in reduction.removals.iter().rev() {
        let class = match removal.reason {
            Reason::Single => {
                count += 1;
                count - 1
            }
            Reason::Tied(partner) => class_of[&partner],
        };
        class_of.insert(removal.grant, class);
    }
    by_lowest_grant(&class_of, count)
}

fn by_lowest_grant(class_of: &BTreeMap<Grant, usize>, count: usize) -> Vec<BTreeSet<Grant>> {
    let mut classes = vec![BTreeSet::new(); count];
    for (grant, class) in class_of {
        classes[*class].insert(*grant);
    }
    classes.sort_by_key(|class| class.first().copied());
    classes
}

fn role(class: &BTreeSet<Grant>) -> Role {
    Role {
        users: class.iter().map(|grant| grant.user).collect(),
        permissions: class.iter().map(|grant| grant.permission).collect(),
    }
}
