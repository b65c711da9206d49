//! Reduction, witness and first cover of many small sheets against the restated rules, and what must be true
//! of them.

use second::cover;
use second::grants::{self, fits};
use second::reduction::Reason;
use trials::cases::cases;
use trials::draft::Draft;
use trials::families;
use trials::restated::tables;
use trials::restated::whole::Prepared;

use crate::support::{numbers, reduced, session_with};

/// The removals by number, as the restated rules give them.
fn removals_by_number(draft: &Draft, removals: &[second::reduction::Removal]) -> Vec<tables::Removal> {
    let number = |grant| numbers(draft, &[grant])[0];
    let tie = |reason| match reason {
        Reason::Single => None,
        Reason::Tied(partner) => Some(number(partner)),
    };
    removals.iter().map(|removal| (number(removal.grant), tie(removal.reason))).collect()
}

#[test]
fn removals_are_those_of_the_restated_rules() {
    let (mut with_kernel, mut with_ties) = (0, 0);
    cases(8_000, |random| {
        let draft = families::any(random, 9);
        let session = session_with(&draft.bytes());
        let reduction = reduced(&session).reduction();
        let expected = Prepared::of(&draft);
        assert_eq!(removals_by_number(&draft, &reduction.removals), expected.removals, "{draft:?}");
        assert_eq!(numbers(&draft, &reduction.kernel), expected.kernel, "{draft:?}");
        with_kernel += usize::from(!expected.kernel.is_empty());
        with_ties += usize::from(expected.removals.iter().any(|(_, tie)| tie.is_some()));
    });
    assert!(with_kernel > 500 && with_ties > 500, "{with_kernel} with a kernel, {with_ties} with ties");
}

#[test]
fn witness_is_that_of_the_restated_rules() {
    cases(8_000, |random| {
        let draft = families::any(random, 9);
        let session = session_with(&draft.bytes());
        let expected = Prepared::of(&draft).witness;
        assert_eq!(numbers(&draft, reduced(&session).witness()), expected, "{draft:?}");
    });
}

/// The third grouping is never the first best: in the first one no user opens more than one class, since all
/// grants of one user fit.
#[test]
fn groupings_are_those_of_the_restated_rules() {
    let mut chosen = [0; 3];
    cases(4_000, |random| {
        let draft =
            if random.percent(50) { families::any(random, 9) } else { families::random(random, 9, 6, 50) };
        let session = session_with(&draft.bytes());
        let (sheet, kernel) = (reduced(&session).sheet(), &reduced(&session).reduction().kernel);
        let expected = tables::groupings(&draft, &tables::fit_table(&draft), &numbers(&draft, kernel));
        let found = cover::groupings(sheet, kernel);
        for (grouping, classes) in found.iter().zip(&expected) {
            assert_eq!(&grouping.classes, classes, "{draft:?}");
            assert_eq!(grouping.count, tables::class_count(classes), "{draft:?}");
        }
        let fewest = found.iter().map(|grouping| grouping.count).min();
        let first =
            found.iter().position(|grouping| Some(grouping.count) == fewest).expect("there are three");
        assert_eq!(reduced(&session).machine().best(), &found[first], "{draft:?}");
        chosen[first] += 1;
    });
    assert!(chosen[0] > 100 && chosen[1] > 20 && chosen[2] == 0, "{chosen:?}");
}

#[test]
fn no_two_witness_grants_fit() {
    cases(2_000, |random| {
        let draft = families::any(random, 12);
        let session = session_with(&draft.bytes());
        let (sheet, witness) = (reduced(&session).sheet(), reduced(&session).witness());
        for (index, grant) in witness.iter().enumerate() {
            assert!(grants::is_held(sheet, *grant));
            assert!(!witness[..index].iter().any(|other| fits(sheet, *other, *grant)), "{draft:?}");
        }
        assert!(witness.is_sorted());
    });
}

/// The choice counts partners among the grants still open to choice. Counted among the whole kernel they
/// would give another witness on some of these sheets.
#[test]
fn partners_are_counted_among_those_open_to_choice() {
    let mut differing = 0;
    cases(500, |random| {
        let draft = families::random(random, 7, 7, 50);
        let session = session_with(&draft.bytes());
        let expected = Prepared::of(&draft);
        assert_eq!(numbers(&draft, reduced(&session).witness()), expected.witness);
        differing += usize::from(by_kernel_count(&expected) != expected.witness);
    });
    assert!(differing > 10, "only {differing} sheets tell the two counts apart");
}

/// The witness with partners counted among the whole kernel, which document 01 does not mean.
fn by_kernel_count(prepared: &Prepared<'_>) -> Vec<usize> {
    let fits = |one: &usize, other: &usize| prepared.table[*one][*other];
    let mut ordered = prepared.kernel.clone();
    ordered.sort_by_key(|grant| prepared.kernel.iter().filter(|other| fits(grant, other)).count());
    let mut taken: Vec<usize> = Vec::new();
    for grant in ordered {
        if !taken.iter().any(|other| fits(&grant, other)) {
            taken.push(grant);
        }
    }
    let singles = prepared.removals.iter().filter(|(_, tie)| tie.is_none());
    taken.extend(singles.map(|(grant, _)| *grant));
    taken.sort();
    taken
}

/// Singles and the kernel's permissions are different permissions, so there are never more roles than
/// permissions.
#[test]
fn roles_never_outnumber_permissions() {
    cases(2_000, |random| {
        let draft = families::any(random, 12);
        let session = session_with(&draft.bytes());
        let state = reduced(&session);
        let roles = state.machine().best().count + state.reduction().singles().count();
        assert!(roles <= draft.permissions.len(), "{draft:?}");
    });
}
