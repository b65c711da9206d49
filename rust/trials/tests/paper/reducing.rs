//! Reading without reducing: a load reads and accepts a sheet, a reduction reduces it and makes the first cover. The
//! request's sentences in its order.

use second::refusal::Refusal;
use second::roles::State;
use second::session::{Session, book};
use second::sheet::Sheet;
use trials::cases::cases;
use trials::families::{self, crown};
use trials::restated::whole::Prepared;
use trials::sessions::first_book;
use trials::steps::{NO_STEPS, search_answer};

use crate::support::{EXAMPLE, EXAMPLE_BOOK, load_answer, loaded, reduce_answer, reduced, session_with};

/// A sheet that no load accepts.
const REFUSED: &[u8] = b"user,p\nu,2\n";

/// The number of a writing into a buffer of this length, 0 if it is accepted. If it is refused the buffer stays.
fn write_number(session: &Session, length: usize) -> u32 {
    let mut buffer = vec![b'#'; length];
    let number = session.write(&mut buffer).map_or_else(Refusal::number, |_| 0);
    assert!(number == 0 || buffer.iter().all(|byte| *byte == b'#'), "{number}");
    number
}

fn search_number(session: &mut Session, budget: u32) -> u32 {
    session.search(budget).map_or_else(Refusal::number, |_| 0)
}

#[test]
fn load_reads_and_reduction_makes_the_first_cover() {
    let sheet = crown(4).bytes();
    let mut session = Session::fresh();
    session.load(&sheet).expect("the sheet is acceptable");
    assert_eq!(session, Session::NotReduced(Sheet::read(&sheet).expect("the sheet is acceptable")));
    session.reduce().expect("a sheet is loaded");
    let machine = reduced(&session).machine();
    assert_eq!((machine.best().count, machine.best().classes.len()), (4, 12));
    assert_eq!((machine.placed(), machine.next_try(), machine.is_finished()), (&[][..], 0, false));
}

#[test]
fn load_answers_users_permissions_and_grants_and_reduction_k_and_w() {
    let mut session = Session::fresh();
    assert_eq!(session.load(EXAMPLE.as_bytes()), Ok(load_answer(3, 3, 7)));
    assert_eq!(session.reduce(), Ok(reduce_answer(0, 2)));
    assert_eq!(session.load(&crown(4).bytes()), Ok(load_answer(4, 4, 12)));
    assert_eq!(session.reduce(), Ok(reduce_answer(12, 3)));
    assert_eq!(session.load(b"user,p,q\nu,0,0\n"), Ok(load_answer(1, 2, 0)));
    assert_eq!(session.reduce(), Ok(reduce_answer(0, 0)));
}

#[test]
fn counts_are_those_of_the_restated_rules() {
    let mut with_kernel = 0;
    cases(1_000, |random| {
        let is_wide = random.percent(10);
        let draft = if is_wide { families::any_wide(random, 8) } else { families::any(random, 8) };
        let mut session = Session::fresh();
        let counts = load_answer(draft.users.len(), draft.permissions.len(), draft.grants().len());
        assert_eq!(session.load(&draft.bytes()), Ok(counts), "{draft:?}");
        let expected = Prepared::of(&draft);
        let counts = reduce_answer(expected.kernel.len(), expected.witness.len());
        assert_eq!(session.reduce(), Ok(counts), "{draft:?}");
        with_kernel += usize::from(counts.kernel > 0);
    });
    assert!(with_kernel > 50, "only {with_kernel} with a kernel");
}

#[test]
fn accepted_load_leaves_its_sheet_not_reduced() {
    let sheet = crown(4).bytes();
    let mut session = session_with(EXAMPLE.as_bytes());
    for _ in 0..2 {
        assert_eq!(session.load(&sheet), Ok(load_answer(4, 4, 12)));
        assert_eq!(session, loaded(&sheet));
        assert_eq!(search_number(&mut session, 0), 16);
        assert_eq!(session.reduce(), Ok(reduce_answer(12, 3)));
        assert_eq!(session.search(60), Ok(search_answer([60, 35, 25, 0], 4, 3, State::Open)));
    }
}

#[test]
fn refused_load_leaves_a_sheet_as_far_as_it_was() {
    let mut session = loaded(&crown(4).bytes());
    for counts in [NO_STEPS, [60, 35, 25, 0], [60, 26, 34, 0]] {
        let before = session.clone();
        assert_eq!(session.load(REFUSED), Err(Refusal::FieldValue));
        assert_eq!(session, before);
        assert_eq!(session.reduce(), Ok(reduce_answer(12, 3)));
        assert_eq!(session.search(counts[0]), Ok(search_answer(counts, 4, 3, State::Open)));
    }
    assert_eq!(session.search(60), Ok(search_answer([5, 1, 3, 1], 4, 4, State::Searched)));
}

#[test]
fn reducing_a_reduced_sheet_does_nothing_and_answers_the_same_counts() {
    let mut session = session_with(&crown(4).bytes());
    for budget in [0, 1, 50, 73, 1, 9] {
        session.search(budget).expect("the sheet is reduced");
        let before = session.clone();
        assert_eq!(session.reduce(), Ok(reduce_answer(12, 3)));
        assert_eq!(session, before);
    }
    assert!(reduced(&session).machine().is_finished());
}

/// The four users are closed with step 125. A budget given before the reduction makes none of these steps.
#[test]
fn budgets_count_from_the_first_reduction_on() {
    let mut session = loaded(&crown(4).bytes());
    assert_eq!(search_number(&mut session, u32::MAX), 16);
    assert_eq!(session, loaded(&crown(4).bytes()));
    session.reduce().expect("a sheet is loaded");
    assert_eq!(session.search(0), Ok(search_answer(NO_STEPS, 4, 3, State::Open)));
    assert_eq!(session.search(100), Ok(search_answer([100, 53, 47, 0], 4, 3, State::Open)));
    session.reduce().expect("a sheet is loaded");
    assert_eq!(session.search(25), Ok(search_answer([25, 9, 15, 1], 4, 4, State::Searched)));
}

#[test]
fn reduction_without_an_accepted_sheet_gives_10() {
    let mut session = Session::fresh();
    assert_eq!(session.reduce().map_err(Refusal::number), Err(10));
    assert_eq!(session, Session::fresh());
    assert_eq!(session.load(REFUSED), Err(Refusal::FieldValue));
    assert_eq!(session.reduce().map_err(Refusal::number), Err(10));
    assert_eq!(session, Session::fresh());
}

#[test]
fn search_and_book_of_a_sheet_not_reduced_give_16() {
    let mut session = loaded(EXAMPLE.as_bytes());
    let before = session.clone();
    for budget in [0, 1, u32::MAX] {
        assert_eq!(search_number(&mut session, budget), 16);
    }
    for length in [EXAMPLE_BOOK.len(), EXAMPLE_BOOK.len() + 1, 65_536] {
        assert_eq!(write_number(&session, length), 16);
    }
    assert_eq!(session, before);
}

/// 10, then 16, then 11: the buffers are too short in all three states of a session, and 16 goes before the lower 11.
#[test]
fn number_16_is_judged_after_10_and_before_11() {
    let mut session = Session::fresh();
    for (length, expected) in [(0, 10), (EXAMPLE_BOOK.len() - 1, 10), (EXAMPLE_BOOK.len(), 10)] {
        assert_eq!(write_number(&session, length), expected);
    }
    session.load(EXAMPLE.as_bytes()).expect("the sheet is acceptable");
    for (length, expected) in [(0, 16), (EXAMPLE_BOOK.len() - 1, 16), (EXAMPLE_BOOK.len(), 16)] {
        assert_eq!(write_number(&session, length), expected);
    }
    session.reduce().expect("a sheet is loaded");
    for (length, expected) in [(0, 11), (EXAMPLE_BOOK.len() - 1, 11), (EXAMPLE_BOOK.len(), 0)] {
        assert_eq!(write_number(&session, length), expected);
    }
    session.load(EXAMPLE.as_bytes()).expect("the sheet is acceptable");
    assert_eq!(write_number(&session, 0), 16);
}

/// One call that loads, reduces, searches and writes gives what it gave when a load reduced too.
#[test]
fn book_by_one_call_is_reduced() {
    let mut buffer = vec![b'#'; EXAMPLE_BOOK.len() + 1];
    assert_eq!(book(EXAMPLE.as_bytes(), 0, &mut buffer), Ok(EXAMPLE_BOOK.len()));
    assert_eq!(buffer, [EXAMPLE_BOOK, "#"].concat().as_bytes());
    assert_eq!(
        book(EXAMPLE.as_bytes(), 0, &mut buffer[..EXAMPLE_BOOK.len() - 1]),
        Err(Refusal::BufferLength)
    );
    assert_eq!(book(REFUSED, 0, &mut []), Err(Refusal::FieldValue));
    let (open, searched) = (first_book(&crown(4).bytes()), session_after(125));
    for (budget, expected) in [(0, &open), (124, &open), (125, &searched), (u32::MAX, &searched)] {
        let mut buffer = vec![b'#'; expected.len()];
        assert_eq!(book(&crown(4).bytes(), budget, &mut buffer), Ok(expected.len()));
        assert_eq!(&buffer, expected);
    }
}

/// The book of the four users after so many steps.
fn session_after(steps: u32) -> Vec<u8> {
    let mut session = session_with(&crown(4).bytes());
    assert_eq!(session.search(steps).map(|answer| answer.steps), Ok(steps));
    reduced(&session).book_bytes()
}
