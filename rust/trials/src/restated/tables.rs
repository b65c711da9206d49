//! Reduction, witness and groupings over grant numbers and a table of which two fit.

use crate::draft::Draft;

/// Which two grants fit, by their numbers.
pub type Table = Vec<Vec<bool>>;

/// The table of all grants of the sheet.
pub fn fit_table(draft: &Draft) -> Table {
    let grants = draft.grants();
    let fit = |one: &(usize, usize), other: &(usize, usize)| {
        draft.held[one.0][other.1] && draft.held[other.0][one.1]
    };
    grants.iter().map(|one| grants.iter().map(|other| fit(one, other)).collect()).collect()
}

/// A removed grant, and the one it is tied to unless it is single.
pub type Removal = (usize, Option<usize>);

/// The removals in order, and the kernel.
pub fn reduce(table: &Table) -> (Vec<Removal>, Vec<usize>) {
    let mut remaining = vec![true; table.len()];
    let mut removals = Vec::new();
    let mut visited_since_removal = 0;
    let mut sweep = (0..table.len()).cycle();
    while visited_since_removal < table.len() {
        let grant = sweep.next().expect("a sweep follows the last one");
        visited_since_removal += 1;
        if remaining[grant]
            && let Some(tie) = removal(table, &remaining, grant)
        {
            remaining[grant] = false;
            removals.push((grant, tie));
            visited_since_removal = 0;
        }
    }
    let kernel = (0..table.len()).filter(|grant| remaining[*grant]).collect();
    (removals, kernel)
}

/// Whether the grant goes, and if so, what it is tied to.
fn removal(table: &Table, remaining: &[bool], grant: usize) -> Option<Option<usize>> {
    let others: Vec<usize> = (0..table.len()).filter(|other| remaining[*other] && *other != grant).collect();
    if !others.iter().any(|other| table[grant][*other]) {
        return Some(None);
    }
    let outside = |other: &usize| !table[grant][*other];
    let lowest = others.iter().find(|candidate| {
        !outside(candidate) && !others.iter().any(|other| table[**candidate][*other] && outside(other))
    });
    lowest.map(|candidate| Some(*candidate))
}

/// The witness in grant order: singles, and the kernel's choice with the partner counts kept up to date.
pub fn witness(table: &Table, removals: &[Removal], kernel: &[usize]) -> Vec<usize> {
    let mut open = kernel.to_vec();
    let mut partners: Vec<usize> = vec![0; table.len()];
    for grant in kernel {
        partners[*grant] = kernel.iter().filter(|other| *other != grant && table[*grant][**other]).count();
    }
    let mut witness: Vec<usize> =
        removals.iter().filter(|(_, tie)| tie.is_none()).map(|(grant, _)| *grant).collect();
    while let Some(fewest) = open.iter().map(|grant| partners[*grant]).min() {
        let taken = *open.iter().find(|grant| partners[**grant] == fewest).expect("one has the fewest");
        witness.push(taken);
        let (dropped, kept): (Vec<usize>, Vec<usize>) = open.iter().partition(|grant| table[taken][**grant]);
        for grant in &kept {
            partners[*grant] -= dropped.iter().filter(|gone| table[*grant][**gone]).count();
        }
        open = kept;
    }
    witness.sort();
    witness
}

/// The three groupings of the kernel: a class for each of its grants.
pub fn groupings(draft: &Draft, table: &Table, kernel: &[usize]) -> [Vec<usize>; 3] {
    let grants = draft.grants();
    let same = |key: &dyn Fn(usize) -> usize| {
        let keys: Vec<usize> = kernel.iter().map(|grant| key(*grant)).collect();
        let first_of = |key: &usize| keys.iter().position(|other| other == key);
        let firsts: Vec<usize> =
            (0..keys.len()).filter(|place| first_of(&keys[*place]) == Some(*place)).collect();
        let class = |key: &usize| firsts.iter().position(|first| keys[*first] == *key);
        keys.iter().map(|key| class(key).expect("each key has a first place")).collect()
    };
    [first_fit(table, kernel), same(&|grant| grants[grant].1), same(&|grant| grants[grant].0)]
}

/// The grouping with the fewest classes, the earlier one on a tie.
pub fn first_best(draft: &Draft, table: &Table, kernel: &[usize]) -> Vec<usize> {
    let [by_fit, by_permission, by_user] = groupings(draft, table, kernel);
    let mut best = by_fit;
    for later in [by_permission, by_user] {
        if class_count(&later) < class_count(&best) {
            best = later;
        }
    }
    best
}

fn first_fit(table: &Table, kernel: &[usize]) -> Vec<usize> {
    let mut classes: Vec<usize> = Vec::new();
    for grant in kernel {
        let placed: Vec<(usize, usize)> = classes.iter().copied().zip(kernel.iter().copied()).collect();
        let is_barred =
            |class: usize| placed.iter().any(|(other, member)| *other == class && !table[*grant][*member]);
        let lowest = (0..).find(|class| !is_barred(*class)).expect("a class without members bars none");
        classes.push(lowest);
    }
    classes
}

/// The number of classes in a list of them.
pub fn class_count(classes: &[usize]) -> usize {
    classes.iter().map(|class| class + 1).max().unwrap_or(0)
}
