//! The generators: what they promise, so that the other trials try what they mean to try.

use std::collections::BTreeSet;

use second::script::Call;
use trials::calls::sequence;
use trials::cases::cases;
use trials::extremes;
use trials::families;
use trials::one_change::{self, Changed, NewCells, OneChange};
use trials::random::Random;
use trials::restated::causes::lowest_cause;
use trials::searches::is_open;
use trials::sessions::first_book;
use trials::spelling;
use trials::tally::Tally;

#[test]
fn one_seed_gives_one_sheet() {
    let drawn = |seed| families::any(&mut Random::from_seed(seed), 9);
    assert_eq!(drawn(5), drawn(5));
    let different: BTreeSet<Vec<u8>> = (0..200).map(|seed| drawn(seed).bytes()).collect();
    assert!(different.len() > 180, "{}", different.len());
}

#[test]
fn sheets_of_families_are_acceptable() {
    cases(2_000, |random| {
        let draft = families::any(random, 12);
        assert_eq!(lowest_cause(&draft.bytes()), None, "{draft:?}");
    });
}

/// Names have letters in both cases, and a user and a permission share one, spelled alike or in other case.
#[test]
fn names_of_families_come_in_both_cases() {
    let mut seen = Tally::default();
    cases(500, |random| {
        let draft = families::any(random, 8);
        let pairs = draft.users.iter().flat_map(|user| draft.permissions.iter().map(move |own| (user, own)));
        for (user, permission) in pairs.filter(|(user, own)| user.eq_ignore_ascii_case(own)) {
            seen.note(if user == permission { "spelled alike" } else { "in other case" });
        }
        for name in draft.users.iter().chain(&draft.permissions) {
            let has_small = name.bytes().any(|byte| byte.is_ascii_lowercase());
            let has_capital = name.bytes().any(|byte| byte.is_ascii_uppercase());
            seen.note(if has_small && has_capital { "both cases" } else { "one case" });
        }
    });
    seen.expect(["spelled alike", "in other case", "both cases", "one case"], 50);
}

/// A sheet or a book in another spelling differs from what it was made of in case alone, or in one field.
#[test]
fn other_spellings_are_as_asked() {
    let mut changed = Tally::default();
    cases(500, |random| {
        let draft = families::any(random, 8);
        let sheet = draft.bytes();
        let book = first_book(&sheet);
        let respelt_sheet = spelling::sheet(random, &draft).bytes();
        let respelt_book = spelling::book(random, &draft, &book);
        assert!(respelt_sheet.eq_ignore_ascii_case(&sheet) && respelt_book.eq_ignore_ascii_case(&book));
        changed.note(("sheet", respelt_sheet != sheet));
        changed.note(("book", respelt_book != book));
        let word = spelling::with_word_in_other_case(random, &draft, &book);
        assert!(word != book && word.eq_ignore_ascii_case(&book), "{}", String::from_utf8_lossy(&word));
        let (_, misspelt) = spelling::misspelt_book(random, &draft, &book);
        assert!(!misspelt.eq_ignore_ascii_case(&book), "{}", String::from_utf8_lossy(&misspelt));
        let first_field = spelling::with_first_field_in_other_case(random, &draft);
        assert!(first_field != sheet && first_field.eq_ignore_ascii_case(&sheet));
        let clash = spelling::with_clash(random, &draft);
        let names = [&clash.users, &clash.permissions];
        let is_one = |names: &[String]| names.len() > different(names).len();
        assert_eq!(names.map(|names| is_one(names)).into_iter().filter(|is_one| *is_one).count(), 1);
    });
    changed.expect([("sheet", true), ("book", true)], 400);
}

fn different(names: &[String]) -> BTreeSet<String> {
    names.iter().map(|name| name.to_ascii_lowercase()).collect()
}

/// The two sheets are acceptable and have the same names, some of them in other case. They differ in the line or column
/// that is named and nowhere else, and there the second has what is said of it.
#[test]
fn one_change_is_as_asked() {
    let (mut spelled, mut places, mut seen) = (Tally::default(), Tally::default(), Tally::default());
    cases(2_000, |random| {
        let draft = families::any(random, 6);
        let (change, new) = one_change::any(random, draft);
        let OneChange { before, after, changed } = &change;
        let causes = change.sheets().map(|draft| lowest_cause(&draft.bytes()));
        assert_eq!(causes, [None, None], "{change:?}");
        let names = change.sheets().map(|draft| [&draft.users[..], &draft.permissions].concat().join(","));
        assert!(names[0].eq_ignore_ascii_case(&names[1]), "{change:?}");
        spelled.note(names[0] == names[1]);
        let grants = change.sheets().map(|draft| BTreeSet::from_iter(draft.grants()));
        let differing: Vec<(usize, usize)> = grants[0].symmetric_difference(&grants[1]).copied().collect();
        let (place, count, cells): (_, _, Vec<bool>) = match *changed {
            Changed::Line(own) => {
                assert!(differing.iter().all(|(user, _)| *user == own), "{change:?}");
                (own, before.users.len(), after.held[own].clone())
            }
            Changed::Column(own) => {
                assert!(differing.iter().all(|(_, permission)| *permission == own), "{change:?}");
                (own, before.permissions.len(), after.held.iter().map(|row| row[own]).collect())
            }
        };
        let is_as_said = match new {
            NewCells::Any => true,
            NewCells::Ones => cells.iter().all(|held| *held),
            NewCells::Zeros => !cells.contains(&true),
            NewCells::OneOther => differing.len() == 1,
            NewCells::Same => differing.is_empty(),
        };
        assert!(is_as_said, "{new:?} {change:?}");
        places.note((changed.is_line(), place == 0, place + 1 == count));
        seen.note((changed.is_line(), new, differing.len() > 1));
    });
    spelled.expect([true, false], 300);
    for is_line in [true, false] {
        let first_or_last = [(true, true), (true, false), (false, true), (false, false)];
        places.expect(first_or_last.map(|(is_first, is_last)| (is_line, is_first, is_last)), 50);
        let of_several_cells = [NewCells::Any, NewCells::Ones, NewCells::Zeros];
        seen.expect(of_several_cells.map(|new| (is_line, new, true)), 50);
        seen.expect([NewCells::OneOther, NewCells::Same].map(|new| (is_line, new, false)), 50);
    }
}

/// Both sheets have at most six users and six permissions, and there is something to search on some.
#[test]
fn small_changes_are_small() {
    let mut seen = Tally::default();
    cases(300, |random| {
        for draft in one_change::any_small(random).sheets() {
            let (users, permissions) = (draft.users.len(), draft.permissions.len());
            assert!(users.max(permissions) <= 6, "{draft:?}");
            seen.note((users.max(permissions) < 3, is_open(draft)));
        }
    });
    seen.expect([(true, false), (false, false), (false, true)], 20);
}

/// Those with more permissions than a word has bits hold grants in both words, and in the second one alone.
#[test]
fn wide_sheets_of_families_are_acceptable() {
    let mut words = Tally::default();
    cases(500, |random| {
        let draft = families::any_wide(random, 12);
        assert_eq!(lowest_cause(&draft.bytes()), None, "{draft:?}");
        assert!((65..=128).contains(&draft.permissions.len()), "{draft:?}");
        let is_in = |word: usize| draft.grants().iter().any(|(_, permission)| permission / 64 == word);
        words.note((is_in(0), is_in(1)));
    });
    words.expect([(true, true), (true, false), (false, true)], 3);
}

#[test]
fn sheets_and_books_are_as_long_as_asked() {
    for bytes in [65_000, 65_536, 65_537] {
        let draft = extremes::filled(&mut Random::from_seed(1), 245, 128, bytes);
        assert_eq!(draft.bytes().len(), bytes);
        assert_eq!(draft.grants().len(), 2_048);
        assert_eq!(first_book(&extremes::with_book_bytes(bytes).bytes()).len(), bytes);
    }
}

#[test]
fn number_of_grants_is_as_asked() {
    cases(50, |random| {
        let count = random.between(0, 100);
        assert_eq!(extremes::with_grants(random, 10, 12, count).grants().len(), count);
    });
}

#[test]
fn sequences_have_every_kind_of_call() {
    let mut kinds = [0; 6];
    cases(60, |random| {
        for call in sequence(random, 20, 5) {
            let kind = match call {
                Call::Load(_) => 0,
                Call::Reduce => 1,
                Call::Search(_) => 2,
                Call::Write(_) => 3,
                Call::Check { .. } => 4,
                Call::Newcomer { .. } => 5,
            };
            kinds[kind] += 1;
        }
    });
    assert!(kinds.iter().all(|count| *count > 50), "{kinds:?}");
}
