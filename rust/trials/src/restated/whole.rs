//! The whole way from a sheet to its book, over the restated parts.

use std::collections::BTreeSet;

use crate::book_draft::BookDraft;
use crate::draft::Draft;
use crate::paper;
use crate::restated::recursion::Search;
use crate::restated::tables::{self, Removal, Table, class_count};

/// An acceptable sheet with what its reduction finds out.
pub struct Prepared<'a> {
    draft: &'a Draft,
    pub table: Table,
    pub removals: Vec<Removal>,
    pub kernel: Vec<usize>,
    pub witness: Vec<usize>,
    pub first_best: Vec<usize>,
}

impl Prepared<'_> {
    pub fn of(draft: &Draft) -> Prepared<'_> {
        let table = tables::fit_table(draft);
        let (removals, kernel) = tables::reduce(&table);
        Prepared {
            draft,
            witness: tables::witness(&table, &removals, &kernel),
            first_best: tables::first_best(draft, &table, &kernel),
            table,
            removals,
            kernel,
        }
    }

    /// The search after at most this many steps; of a kernel that is too large, after none.
    pub fn search(&self, steps: u64) -> Search<'_> {
        let singles = self.removals.iter().filter(|(_, tie)| tie.is_none()).count();
        let target = self.witness.len() - singles;
        let steps = if self.kernel.len() > paper::SEARCHED_KERNEL { 0 } else { steps };
        Search::run(&self.table, &self.kernel, self.first_best.clone(), target, steps)
    }

    /// The book at that moment of the search.
    pub fn book(&self, search: &Search<'_>) -> String {
        let classes = self.classes(&search.best);
        let (roles, witness) = (classes.len(), self.witness.len());
        let (state, bound) = match (roles == witness, search.finished) {
            (true, _) => ("witnessed", roles),
            (false, true) => ("searched", roles),
            (false, false) => ("open", witness),
        };
        let grants = self.draft.grants();
        let permissions = |class: &BTreeSet<usize>| class.iter().map(|grant| grants[*grant].1).collect();
        let book = BookDraft {
            role_count: roles.to_string(),
            bound: bound.to_string(),
            state: state.to_string(),
            roles: classes.iter().map(permissions).collect(),
            users: (0..self.draft.users.len()).map(|user| roles_of(user, &grants, &classes)).collect(),
            witness: self.witness.iter().map(|grant| grants[*grant]).collect(),
        };
        book.text(self.draft)
    }

    /// The classes of all grants, in the order of their lowest grants.
    fn classes(&self, placed: &[usize]) -> BTreeSet<BTreeSet<usize>> {
        let mut classes: Vec<BTreeSet<usize>> = vec![BTreeSet::new(); class_count(placed)];
        for (grant, class) in self.kernel.iter().zip(placed) {
            classes[*class].insert(*grant);
        }
        for (grant, tie) in self.removals.iter().rev() {
            let partners =
                classes.iter_mut().find(|class| tie.is_some_and(|partner| class.contains(&partner)));
            match partners {
                Some(class) => drop(class.insert(*grant)),
                None => classes.push(BTreeSet::from([*grant])),
            }
        }
        classes.into_iter().collect()
    }
}

/// The roles that this user has a grant of.
fn roles_of(user: usize, grants: &[(usize, usize)], classes: &BTreeSet<BTreeSet<usize>>) -> BTreeSet<usize> {
    let numbered = classes.iter().enumerate();
    numbered
        .filter(|(_, class)| class.iter().any(|grant| grants[*grant].0 == user))
        .map(|(role, _)| role)
        .collect()
}
