//! Books: their bytes against the restated rules, and what a reader can check in each of them.

use std::collections::BTreeSet;

use second::checker::check;
use second::roles::{self, State};
use trials::book_draft::BookDraft;
use trials::cases::cases;
use trials::draft::Draft;
use trials::families;
use trials::random::Random;
use trials::restated::form::verdict;
use trials::restated::whole::Prepared;
use trials::tally::Tally;

use crate::support::{book, check_answer, reduced, session_with};

fn judge_books(count: u64, sheet: impl Fn(&mut Random) -> Draft) {
    let mut states = Tally::default();
    cases(count, |random| {
        let draft = sheet(random);
        let mut session = session_with(&draft.bytes());
        let budget = *random.pick(&[0, 1, 2, 10, 100, 3_000]);
        let answer = session.search(budget).expect("the sheet is reduced");
        let prepared = Prepared::of(&draft);
        let search = prepared.search(u64::from(budget));
        assert_eq!(book(&session), prepared.book(&search), "{draft:?}");
        assert_eq!(u64::from(answer.steps), search.steps, "{draft:?}");
        states.note(answer.state.word());
    });
    states.expect(State::ALL.map(State::word), 10);
}

#[test]
fn books_are_byte_for_byte_those_of_the_restated_rules() {
    judge_books(8_000, |random| families::any(random, 8));
}

/// Such sheets have more permissions than a word has bits.
#[test]
fn wide_books_are_byte_for_byte_those_of_the_restated_rules() {
    judge_books(1_500, |random| families::any_wide(random, 5));
}

#[test]
fn every_book_is_accepted_and_multiplies_to_the_sheet() {
    cases(2_000, |random| {
        let draft = families::any(random, 14);
        let mut session = session_with(&draft.bytes());
        for budget in [0, random.below(20) as u32, random.below(2_000) as u32] {
            let answer = session.search(budget).expect("the sheet is reduced");
            let bytes = reduced(&session).book_bytes();
            let witness = reduced(&session).witness().len();
            assert_eq!(check(&draft.bytes(), &bytes), Ok(check_answer(answer.roles, witness)), "{draft:?}");
            assert_eq!(verdict(&draft, &bytes), Ok((answer.roles, witness)), "{draft:?}");
            let read = BookDraft::made_out(&draft, &book(&session));
            assert!(read.opened().into_iter().eq(draft.grants()), "{draft:?}");
            assert_eq!(read.bound, answer.bound.to_string());
            assert_eq!(read.state, answer.state.word());
            assert!(read.witness.is_sorted());
        }
    });
}

#[test]
fn classes_are_numbered_by_their_lowest_grant_and_part_the_grants() {
    cases(1_000, |random| {
        let draft = families::any(random, 10);
        let session = session_with(&draft.bytes());
        let state = reduced(&session);
        let classes = roles::classes(state.reduction(), state.machine().best());
        assert!(classes.is_sorted_by_key(|class| class.first().copied()), "{draft:?}");
        assert_eq!(classes.iter().map(BTreeSet::len).sum::<usize>(), draft.grants().len(), "{draft:?}");
        let all: BTreeSet<_> = classes.iter().flatten().copied().collect();
        assert_eq!(all.len(), draft.grants().len(), "{draft:?}");
    });
}

#[test]
fn bytes_past_the_book_stay() {
    cases(500, |random| {
        let draft = families::any(random, 8);
        let session = session_with(&draft.bytes());
        let expected = reduced(&session).book_bytes();
        let past = random.below(50);
        let before: Vec<u8> = (0..expected.len() + past).map(|_| random.below(256) as u8).collect();
        let mut buffer = before.clone();
        assert_eq!(session.write(&mut buffer), Ok(expected.len()));
        assert_eq!(buffer[..expected.len()], expected);
        assert_eq!(buffer[expected.len()..], before[expected.len()..]);
    });
}
