//! The slips that document 01 names: a small sheet for each on which the slip gives another answer.

use second::reduction::Reason;
use second::roles::State;
use second::session::Session;
use trials::draft::Draft;
use trials::steps::{NO_STEPS, search_answer};

use crate::support::{book, load_answer, numbers, reduce_answer, reduced, session_with};

/// Two users who hold the same two permissions. The first grant goes; if fit were tested on what remains, the
/// second and the third would then no longer fit and two roles would come out.
#[test]
fn fit_is_tested_in_the_whole_sheet() {
    let mut session = Session::fresh();
    assert_eq!(session.load(b"user,p,q\nu,1,1\nv,1,1\n"), Ok(load_answer(2, 2, 4)));
    assert_eq!(session.reduce(), Ok(reduce_answer(0, 1)));
    assert_eq!(session.search(0), Ok(search_answer(NO_STEPS, 1, 1, State::Witnessed)));
}

/// The two grants of one user have the same partners. The first goes, and then nothing is left for the second
/// to dominate.
#[test]
fn two_grants_do_not_remove_each_other() {
    let draft = Draft::plain(1, 2, |_, _| true);
    let session = session_with(&draft.bytes());
    let removals = &reduced(&session).reduction().removals;
    let removed: Vec<_> = removals.iter().map(|removal| removal.grant).collect();
    assert_eq!(numbers(&draft, &removed), [0, 1]);
    assert_eq!(removals[0].reason, Reason::Tied(removed[1]));
    assert_eq!(removals[1].reason, Reason::Single);
}

/// Of three grants of one user two are tied; only the single one is in the witness.
#[test]
fn tied_grants_are_not_in_the_witness() {
    let session = session_with(b"user,p,q,r\nu,1,1,1\n");
    assert!(book(&session).ends_with("\n\nuser,permission\nu,r\n"));
    assert_eq!(reduced(&session).witness().len(), 1);
}

/// The first best has five classes, and the search comes down to four while four are in use. Grants placed on
/// top of them, into one of the four, would take four steps more and end with another placement.
#[test]
fn no_grant_is_placed_while_as_many_classes_are_in_use_as_the_best_has() {
    let mut session = session_with(
        b"user,p0,p1,p2,p3,p4,p5\nu0,0,1,1,0,1,1\nu1,1,1,1,0,1,1\nu2,0,1,1,1,1,1\n\
          u3,1,0,0,1,0,0\nu4,1,1,0,1,1,1\nu5,1,0,1,1,1,1\n",
    );
    assert_eq!(session.search(0), Ok(search_answer(NO_STEPS, 5, 3, State::Open)));
    assert_eq!(session.search(34), Ok(search_answer([34, 17, 17, 0], 4, 3, State::Open)));
    assert_eq!(session.search(9), Ok(search_answer([1, 0, 0, 1], 4, 4, State::Searched)));
    assert_eq!(reduced(&session).machine().best().classes, [0, 0, 1, 2, 3, 3, 1, 2]);
}

/// The search comes down from five classes to four here too. Opening the class number that was allowed before
/// that would take six steps more.
#[test]
fn no_class_is_opened_that_the_new_best_does_not_allow() {
    let mut session = session_with(
        b"user,p0,p1,p2,p3,p4\nu0,0,1,1,1,1\nu1,0,1,1,0,1\nu2,1,1,0,1,1\nu3,1,0,1,1,0\nu4,1,0,1,1,1\n",
    );
    assert_eq!(session.search(0), Ok(search_answer(NO_STEPS, 5, 3, State::Open)));
    assert_eq!(session.search(24), Ok(search_answer([24, 12, 12, 0], 4, 3, State::Open)));
    assert_eq!(session.search(9), Ok(search_answer([1, 0, 0, 1], 4, 4, State::Searched)));
}
