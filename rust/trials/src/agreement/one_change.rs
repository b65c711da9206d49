//! One person moves one role: what is printed of two sheets that differ only in one user's line, or only in one
//! permission's column.

use second::checker::CheckAnswer;
use second::implementation::Implementation;
use second::roles::State;

use crate::agreement::{Pair, checked};
use crate::book_draft::{BookDraft, Printed};
use crate::cases::cases;
use crate::draft::Draft;
use crate::one_change::{self, OneChange, judged_move};
use crate::random::Random;
use crate::tally::Tally;

/// Small sheets, all searched to the end. The numbers printed are the smallest ones, and at most 1 apart.
pub fn small_sheets_agree<Other: Implementation>(count: u64) {
    let (mut moves, mut words) = (Tally::default(), Tally::default());
    cases(count, |random| {
        let change = one_change::any_small(random);
        let printed = closed_books::<Other>(random, &change).map(|book| Printed::of(&book));
        moves.note((change.changed.is_line(), judged_move(&change, printed)));
        words.note(printed.map(|printed| printed.state.word()));
    });
    for is_line in [true, false] {
        moves.expect([-1, 0, 1].map(|by| (is_line, by)), 10);
    }
    let [witnessed, searched] = [State::Witnessed, State::Searched].map(State::word);
    words.expect([[witnessed, witnessed], [searched, searched]], 10);
    words.expect([[witnessed, searched], [searched, witnessed]], 3);
}

/// The changes of which both numbers are known.
pub fn worked_out_changes_agree<Other: Implementation>() {
    let mut moves = Tally::default();
    for (change, expected) in one_change::worked_out() {
        let printed =
            closed_books::<Other>(&mut Random::from_seed(1), &change).map(|book| Printed::of(&book));
        assert_eq!(printed, expected, "{change:?}");
        moves.note((change.changed.is_line(), judged_move(&change, printed)));
    }
    for is_line in [true, false] {
        moves.expect([-1, 0, 1].map(|by| (is_line, by)), 2);
    }
}

/// The books of the two sheets, searched to the end: in one session, one behind the other, and in two that take turns,
/// which must give the same.
fn closed_books<Other: Implementation>(random: &mut Random, change: &OneChange) -> [Vec<u8>; 2] {
    let mut one = Pair::<Other>::fresh();
    let in_one = change.sheets().map(|draft| {
        one.load(&draft.bytes()).expect("the sheet is acceptable");
        one.reduce().expect("a sheet is loaded");
        closed_book(&mut one)
    });
    let mut two = change.sheets().map(Pair::<Other>::reduced);
    for _ in 0..2 {
        for pair in &mut two {
            pair.search(random.below(50) as u32).expect("the sheet is reduced");
        }
    }
    let in_two = two.map(|mut pair| closed_book(&mut pair));
    assert_eq!(in_one, in_two, "{change:?}");
    in_one
}

/// The book after as many steps as it takes. It prints what the search answers.
fn closed_book<Other: Implementation>(pair: &mut Pair<Other>) -> Vec<u8> {
    let answer = pair.search(u32::MAX).expect("the sheet is reduced");
    let book = pair.book();
    let printed = Printed::of(&book);
    assert_eq!((printed.roles, printed.bound, printed.state), (answer.roles, answer.bound, answer.state));
    book
}

/// Sheets of any size, of which some stay open. A bound is at most the smallest number of its sheet, and so at most 1
/// more than the other book has roles. If neither is open, these are the two numbers printed. A book of the one sheet
/// becomes one of the other by one role more, and is accepted.
pub fn changed_sheets_agree<Other: Implementation>(count: u64, sheet: impl Fn(&mut Random) -> Draft) {
    let mut moves = Tally::default();
    cases(count, |random| {
        let draft = sheet(random);
        let (change, _) = one_change::any(random, draft);
        let books = change.sheets().map(|draft| {
            let mut pair = Pair::<Other>::reduced(draft);
            pair.search(random.below(3_000) as u32).expect("the sheet is reduced");
            pair.book()
        });
        let [before, after] = books.each_ref().map(|book| Printed::of(book));
        assert!(before.bound <= after.roles + 1 && after.bound <= before.roles + 1, "{change:?}");
        assert_one_role_more_is_enough::<Other>(&change, &books[0]);
        assert_one_role_more_is_enough::<Other>(&change.taken_back(), &books[1]);
        let are_settled = before.state != State::Open && after.state != State::Open;
        moves.note(are_settled.then(|| after.roles as isize - before.roles as isize));
    });
    moves.expect([-1, 0, 1].map(Some), 5);
}

/// The book of the first sheet, with one role more, is accepted for the second.
fn assert_one_role_more_is_enough<Other: Implementation>(change: &OneChange, book: &[u8]) {
    let book = BookDraft::made_out(&change.before, &String::from_utf8_lossy(book));
    let longer = change.with_one_role_more(&book).text(&change.after);
    let expected = CheckAnswer { roles: book.roles.len() + 1, witness_lines: 0 };
    assert_eq!(checked::<Other>(&change.after.bytes(), longer.as_bytes()), Ok(expected), "{change:?}");
}
