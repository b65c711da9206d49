//! What the steps were: each step says whether it placed, took back or closed, and a search answers the three counts.
//! The request's sentences in its order.

use std::cmp::Ordering;

use second::machine::{Machine, StepKind, Task};
use second::roles::State;
use second::session::{Reduced, Session};
use trials::agreement::steps;
use trials::cases::cases;
use trials::families::{behind, crown};
use trials::searches::{self, finished_by_the_witness, improved};
use trials::steps::{NO_STEPS, counts, judged_search, search_answer};
use trials::tally::Tally;

use crate::support::{WATCHED_STEPS, reduced, session_with, unfinished};

/// What the machine of this session works on.
fn task(reduced: &Reduced) -> Task<'_> {
    Task {
        sheet: reduced.sheet(),
        kernel: &reduced.reduction().kernel,
        single_count: reduced.reduction().singles().count(),
        witness_count: reduced.witness().len(),
    }
}

/// What a step was is seen from the depth before and after it. Only the closing one leaves the depth as it was, and
/// only a closing one or a placing one finishes.
#[test]
fn each_step_says_whether_it_placed_took_back_or_closed() {
    let mut seen = Tally::default();
    cases(500, |random| {
        let (draft, mut session) = unfinished(random);
        let start = session.clone();
        let task = task(reduced(&start));
        let mut machine = Machine::start(&task, reduced(&start).machine().best().clone());
        let mut kinds = Vec::new();
        while !machine.is_finished() && kinds.len() < WATCHED_STEPS as usize {
            let before = machine.placed().len();
            let kind = machine.step(&task);
            let expected = match machine.placed().len().cmp(&before) {
                Ordering::Greater => StepKind::Placed,
                Ordering::Less => StepKind::TookBack,
                Ordering::Equal => StepKind::Closed,
            };
            assert_eq!(kind, expected, "{draft:?}");
            assert!(kind != StepKind::Closed || (machine.is_finished() && before == 0), "{draft:?}");
            assert!(kind != StepKind::TookBack || !machine.is_finished(), "{draft:?}");
            seen.note((kind, machine.is_finished()));
            kinds.push(kind);
        }
        let of_kind = |kind| kinds.iter().filter(|other| **other == kind).count() as u32;
        let made = kinds.len() as u32;
        let answer = session.search(made).expect("the sheet is reduced");
        let expected = [StepKind::Placed, StepKind::TookBack, StepKind::Closed].map(of_kind);
        assert_eq!(counts(&answer), [made, expected[0], expected[1], expected[2]], "{draft:?}");
        assert_eq!(reduced(&session).machine(), &machine, "{draft:?}");
    });
    seen.expect([(StepKind::Placed, false), (StepKind::TookBack, false)], 1_000);
    seen.expect([(StepKind::Placed, true), (StepKind::Closed, true)], 10);
}

/// The ninth step places the seventh and last grant, and with it there are as many roles as witness grants.
#[test]
fn step_that_finishes_by_the_witness_placed_a_grant() {
    let mut session = session_with(&finished_by_the_witness().bytes());
    assert_eq!(session.search(8), Ok(search_answer([8, 7, 1, 0], 5, 4, State::Open)));
    assert_eq!(reduced(&session).machine().placed().len(), 6);
    assert_eq!(session.search(9), Ok(search_answer([1, 1, 0, 0], 4, 4, State::Witnessed)));
    assert_eq!(reduced(&session).machine().placed().len(), 7);
    assert_eq!(session.search(9), Ok(search_answer(NO_STEPS, 4, 4, State::Witnessed)));
}

/// The 14th step places the last grant with a class less, which leaves the machine unfinished.
#[test]
fn step_that_places_the_last_grant_placed_it() {
    let mut session = session_with(&improved().bytes());
    assert_eq!(session.search(13), Ok(search_answer([13, 11, 2, 0], 6, 4, State::Open)));
    assert_eq!(session.search(1), Ok(search_answer([1, 1, 0, 0], 5, 4, State::Open)));
    assert_eq!(session.search(1), Ok(search_answer([1, 0, 1, 0], 5, 4, State::Open)));
    assert_eq!(session.search(99), Ok(search_answer([30, 10, 19, 1], 5, 5, State::Searched)));
}

#[test]
fn falling_below_the_start_is_a_negative_gain() {
    let mut session = session_with(&crown(4).bytes());
    for (expected, depth_gained, depth) in
        [([60, 35, 25, 0], 10, 10), ([60, 26, 34, 0], -8, 2), ([4, 1, 3, 0], -2, 0), ([1, 0, 0, 1], 0, 0)]
    {
        let answer = session.search(expected[0]).expect("the sheet is reduced");
        assert_eq!((counts(&answer), answer.depth_gained()), (expected, depth_gained));
        assert_eq!(reduced(&session).machine().placed().len(), depth);
    }
}

/// The largest counts that there can be differ by less than a signed word has room for.
#[test]
fn depth_gained_has_room_for_every_count() {
    let gained = |placed, taken_back| {
        search_answer([u32::MAX, placed, taken_back, 0], 1, 1, State::Open).depth_gained()
    };
    assert_eq!(gained(u32::MAX, 0), 4_294_967_295);
    assert_eq!(gained(0, u32::MAX), -4_294_967_295);
}

/// Of many short searches the first one that answers `searched` counts one closing step, and no other one counts any.
#[test]
fn only_the_search_that_closes_counts_a_closing_step() {
    let mut ends = Tally::default();
    cases(500, |random| {
        let (draft, mut session) = unfinished(random);
        let mut search = || judged_search(&mut session, random.below(30) as u32);
        let answers: Vec<_> = (0..60).map(|_| search().expect("the sheet is reduced")).collect();
        let closing = answers.iter().map(|answer| answer.closed);
        let first_searched = answers.iter().position(|answer| answer.state == State::Searched);
        assert_eq!(closing.clone().position(|closed| closed == 1), first_searched, "{draft:?}");
        assert_eq!(closing.sum::<u32>(), u32::from(first_searched.is_some()), "{draft:?}");
        ends.note(answers[59].state.word());
    });
    ends.expect(State::ALL.map(State::word), 10);
}

#[test]
fn single_steps() {
    steps::single_steps_agree::<Session>(300, searches::unfinished);
}

#[test]
fn parts() {
    steps::parts_agree::<Session>(500, searches::unfinished);
    steps::parts_agree::<Session>(50, |random| behind(60, &searches::unfinished(random)));
}

#[test]
fn last_steps() {
    steps::last_steps_agree::<Session>(300, searches::unfinished);
}

#[test]
fn worked_out_searches() {
    steps::worked_out_searches_agree::<Session>();
}
