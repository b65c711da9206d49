//! The search machine: its steps one by one, in portions, and against the search as a recursion.

use second::machine::Machine;
use second::roles::State;
use trials::cases::cases;
use trials::draft::Draft;
use trials::families::crown;
use trials::restated::tables::class_count;
use trials::restated::whole::Prepared;
use trials::steps::{NO_STEPS, counts, judged_search, search_answer, sum};

use crate::support::{WATCHED_STEPS, reduced, session_with, unfinished};

#[test]
fn four_user_case_closes_with_step_125_in_one_search() {
    let mut session = session_with(&crown(4).bytes());
    assert_eq!(session.clone().search(124), Ok(search_answer([124, 62, 62, 0], 4, 3, State::Open)));
    assert_eq!(session.clone().search(125), Ok(search_answer([125, 62, 62, 1], 4, 4, State::Searched)));
    assert_eq!(session.search(u32::MAX), Ok(search_answer([125, 62, 62, 1], 4, 4, State::Searched)));
    assert_eq!(session.search(u32::MAX), Ok(search_answer(NO_STEPS, 4, 4, State::Searched)));
}

#[test]
fn four_user_case_closes_with_step_125_in_many_searches() {
    let draft = crown(4);
    let prepared = Prepared::of(&draft);
    let whole = prepared.search(125);
    for portion in [1, 2, 3, 7, 50, 124] {
        let mut session = session_with(&draft.bytes());
        for start in (0..125).step_by(portion as usize) {
            let end = start + u64::from(portion);
            let (bound, state) = if end < 125 { (3, State::Open) } else { (4, State::Searched) };
            let expected = search_answer(whole.counts(start..end), 4, bound, state);
            assert_eq!(u64::from(expected.steps), end.min(125) - start);
            assert_eq!(session.search(portion), Ok(expected));
        }
    }
}

#[test]
fn four_user_case_places_62_takes_62_back_and_closes_once() {
    let mut session = session_with(&crown(4).bytes());
    let searches = (0..125).map(|_| judged_search(&mut session, 1).expect("the sheet is reduced"));
    assert_eq!(sum(searches.map(|answer| counts(&answer))), [125, 62, 62, 1]);
    assert!(reduced(&session).machine().is_finished());
}

/// With k = 0 nothing is left at the reduction; a full sheet has one role and its witness.
#[test]
fn empty_kernel_is_finished_at_the_reduction() {
    let mut session = session_with(&Draft::plain(3, 3, |_, _| true).bytes());
    assert!(reduced(&session).reduction().kernel.is_empty());
    assert!(reduced(&session).machine().is_finished());
    assert_eq!(session.search(9), Ok(search_answer(NO_STEPS, 1, 1, State::Witnessed)));
}

/// One step: it changes the depth by one or closes, and only a whole placement that is better changes the
/// best.
fn judge_step(before: &Machine, after: &Machine) {
    if after.placed().len() == before.placed().len() + 1 {
        assert!(after.placed().starts_with(before.placed()));
        assert_eq!(after.next_try(), 0);
    } else if let Some((last, rest)) = before.placed().split_last() {
        assert_eq!((after.placed(), after.next_try()), (rest, last + 1));
    } else {
        assert!(after.is_finished() && after.placed().is_empty());
    }
    if after.placed().len() == after.best().classes.len() {
        assert_eq!(after.best().classes, after.placed());
        assert_eq!(after.best().count, class_count(after.placed()));
        assert!(after.best().count < before.best().count);
    } else {
        assert_eq!(after.best(), before.best());
    }
}

/// The lists of classes that are placed rise, so none is placed twice.
#[test]
fn each_step_places_one_takes_one_back_or_closes() {
    let mut improvements = 0;
    cases(500, |random| {
        let (_, mut session) = unfinished(random);
        let mut last_placed = Vec::new();
        for _ in 0..WATCHED_STEPS {
            let before = reduced(&session).machine().clone();
            if before.is_finished() {
                break;
            }
            session.search(1).expect("the sheet is reduced");
            let after = reduced(&session).machine();
            judge_step(&before, after);
            if after.placed().len() > before.placed().len() {
                assert!(last_placed[..] < *after.placed(), "{last_placed:?} {:?}", after.placed());
                last_placed = after.placed().to_vec();
            }
            improvements += usize::from(after.best() != before.best());
        }
    });
    assert!(improvements > 20, "only {improvements} improvements");
}

/// What the machine has after any number of steps is what the recursion has.
#[test]
fn machine_agrees_with_the_recursion_after_any_number_of_steps() {
    let (mut met_witness, mut closed) = (0, 0);
    cases(1_500, |random| {
        let (draft, mut session) = unfinished(random);
        let budget = random.between(1, 20_000) as u32;
        let prepared = Prepared::of(&draft);
        let expected = prepared.search(u64::from(budget));
        let answer = session.search(budget).expect("the sheet is reduced");
        let machine = reduced(&session).machine();
        assert_eq!(u64::from(answer.steps), expected.steps, "{draft:?}");
        assert_eq!(counts(&answer), expected.counts(0..u64::from(budget)), "{draft:?}");
        assert_eq!(machine.placed(), expected.placed, "{draft:?}");
        assert_eq!(machine.best().classes, expected.best, "{draft:?}");
        assert_eq!(machine.is_finished(), expected.finished, "{draft:?}");
        met_witness += usize::from(answer.state == State::Witnessed);
        closed += usize::from(answer.state == State::Searched);
    });
    assert!(met_witness > 10 && closed > 100, "{met_witness} met the witness, {closed} closed");
}

/// Portions of any sizes leave the machine where one search with their sum leaves it.
#[test]
fn portions_add_up() {
    cases(300, |random| {
        let (_, fresh) = unfinished(random);
        let (mut in_portions, mut in_one) = (fresh.clone(), fresh);
        let portions: Vec<u32> = (0..random.between(1, 12)).map(|_| random.below(400) as u32).collect();
        let parts =
            portions.iter().map(|portion| in_portions.search(*portion).expect("the sheet is reduced"));
        let together = sum(parts.map(|part| counts(&part)));
        let answer = in_one.search(portions.iter().sum()).expect("the sheet is reduced");
        assert_eq!(counts(&answer), together);
        assert_eq!(in_portions, in_one);
    });
}

/// A search that meets the witness stops with the whole placement: that adds no step.
#[test]
fn meeting_the_witness_adds_no_step() {
    let mut met = 0;
    cases(300, |random| {
        let (_, mut session) = unfinished(random);
        let answer = session.search(20_000).expect("the sheet is reduced");
        if answer.state == State::Witnessed {
            let machine = reduced(&session).machine();
            assert_eq!(machine.placed(), machine.best().classes);
            assert_eq!((answer.closed, session.search(1).map(|answer| counts(&answer))), (0, Ok(NO_STEPS)));
            met += 1;
        }
    });
    assert!(met > 5, "only {met} met the witness");
}

/// After an improvement that does not finish, the next step takes the last grant back.
#[test]
fn whole_placement_is_taken_back_by_the_next_step() {
    let mut session = session_with(&crown(5).bytes());
    let improved = (0..WATCHED_STEPS).any(|_| {
        session.search(1).expect("the sheet is reduced");
        reduced(&session).machine().best().count < 5
    });
    assert!(improved);
    assert_eq!(reduced(&session).machine().placed().len(), 20);
    session.search(1).expect("the sheet is reduced");
    assert_eq!(reduced(&session).machine().placed().len(), 19);
}
