//! The list "Around the edges" and the worked example.

use second::roles::State;
use second::session::Session;
use trials::extremes;
use trials::families::crown;
use trials::steps::{NO_STEPS, search_answer};

use crate::support::{
    EXAMPLE, EXAMPLE_BOOK, book, check_number, load_answer, load_number, reduce_answer, reduced, session_with,
};

#[test]
fn worked_example_has_seven_grants_and_no_kernel() {
    let mut session = Session::fresh();
    assert_eq!(session.load(EXAMPLE.as_bytes()), Ok(load_answer(3, 3, 7)));
    assert_eq!(session.reduce(), Ok(reduce_answer(0, 2)));
}

#[test]
fn worked_example_gives_its_book_byte_for_byte() {
    let mut session = session_with(EXAMPLE.as_bytes());
    assert_eq!(session.search(0), Ok(search_answer(NO_STEPS, 2, 2, State::Witnessed)));
    let mut buffer = vec![b'#'; 200];
    assert_eq!(session.write(&mut buffer), Ok(EXAMPLE_BOOK.len()));
    let (front, rest) = buffer.split_at(EXAMPLE_BOOK.len());
    assert_eq!(front, EXAMPLE_BOOK.as_bytes());
    assert!(rest.iter().all(|byte| *byte == b'#'));
}

#[test]
fn worked_example_is_accepted_by_the_checker() {
    assert_eq!(check_number(EXAMPLE, EXAMPLE_BOOK), 0);
}

#[test]
fn one_user_without_the_one_permission_needs_no_role() {
    let mut session = Session::fresh();
    assert_eq!(session.load(b"user,p\nu,0\n"), Ok(load_answer(1, 1, 0)));
    assert_eq!(session.reduce(), Ok(reduce_answer(0, 0)));
    assert_eq!(session.search(7), Ok(search_answer(NO_STEPS, 0, 0, State::Witnessed)));
    assert_eq!(book(&session), "roles,bound,state\n0,0,witnessed\n\nrole,p\n\nuser\nu\n\nuser,permission\n");
}

#[test]
fn one_user_with_two_ones_has_one_role_and_the_second_grant_as_witness() {
    let mut session = Session::fresh();
    assert_eq!(session.load(b"user,p,q\nu,1,1\n"), Ok(load_answer(1, 2, 2)));
    assert_eq!(session.reduce(), Ok(reduce_answer(0, 1)));
    assert_eq!(session.search(0), Ok(search_answer(NO_STEPS, 1, 1, State::Witnessed)));
    assert_eq!(
        book(&session),
        "roles,bound,state\n1,1,witnessed\n\nrole,p,q\nR1,1,1\n\nuser,R1\nu,1\n\nuser,permission\nu,q\n"
    );
}

#[test]
fn three_users_each_lacking_their_own_permission_are_witnessed_at_once() {
    let mut session = Session::fresh();
    assert_eq!(session.load(&crown(3).bytes()), Ok(load_answer(3, 3, 6)));
    assert_eq!(session.reduce(), Ok(reduce_answer(6, 3)));
    assert_eq!(session.search(1_000), Ok(search_answer(NO_STEPS, 3, 3, State::Witnessed)));
}

#[test]
fn four_such_users_are_open_at_budget_zero() {
    let mut session = Session::fresh();
    assert_eq!(session.load(&crown(4).bytes()), Ok(load_answer(4, 4, 12)));
    assert_eq!(session.reduce(), Ok(reduce_answer(12, 3)));
    assert_eq!(reduced(&session).machine().best().count, 4);
    assert_eq!(session.search(0), Ok(search_answer(NO_STEPS, 4, 3, State::Open)));
    assert!(book(&session).starts_with("roles,bound,state\n4,3,open\n\n"));
}

#[test]
fn four_such_users_with_budget_one_have_one_grant_placed() {
    let mut session = session_with(&crown(4).bytes());
    assert_eq!(session.search(1), Ok(search_answer([1, 1, 0, 0], 4, 3, State::Open)));
    assert_eq!(reduced(&session).machine().placed(), [0]);
    assert_eq!(reduced(&session).machine().next_try(), 0);
}

#[test]
fn four_such_users_are_closed_within_the_stated_steps() {
    let mut session = session_with(&crown(4).bytes());
    let few = session.clone().search(1_000).map(|answer| answer.state);
    assert_eq!(few, Ok(State::Searched));
    let answer = session.search(1_045_912_627).expect("the sheet is reduced");
    assert_eq!((answer.roles, answer.bound, answer.state), (4, 4, State::Searched));
    assert!(book(&session).starts_with("roles,bound,state\n4,4,searched\n\n"));
}

#[test]
fn names_of_sixteen_bytes_pass_and_of_seventeen_give_5() {
    assert_eq!(load_number(b"user,abcdefghijklmnop\nABCDEFGHIJKLMNOP,1\n"), 0);
    assert_eq!(load_number(b"user,abcdefghijklmnopq\nu,1\n"), 5);
    assert_eq!(load_number(b"user,p\nabcdefghijklmnopq,1\n"), 5);
}

/// In document 01 both stood; the request about spelling makes it an 8.
#[test]
fn names_that_differ_in_case_give_8() {
    assert_eq!(load_number(b"user,p,q\nAnn,1,0\nann,0,1\n"), 8);
    assert_eq!(load_number(b"user,p,P\nann,1,0\nbo,0,1\n"), 8);
    assert_eq!(load_number(b"user,p,Q\nAnn,1,0\nbo,0,1\n"), 0);
}

#[test]
fn no_bytes_give_2() {
    assert_eq!(load_number(b""), 2);
}

#[test]
fn one_hundred_and_twenty_eight_permissions_pass_and_one_more_gives_3() {
    assert_eq!(load_number(&extremes::full(1, 64).bytes()), 0);
    assert_eq!(load_number(&extremes::full(1, 65).bytes()), 0);
    assert_eq!(load_number(&extremes::full(1, 128).bytes()), 0);
    assert_eq!(load_number(&extremes::full(1, 129).bytes()), 3);
}

#[test]
fn two_hundred_and_fifty_six_users_pass_and_one_more_gives_4() {
    assert_eq!(load_number(&extremes::full(256, 1).bytes()), 0);
    assert_eq!(load_number(&extremes::full(257, 1).bytes()), 4);
}

#[test]
fn two_thousand_and_forty_eight_grants_pass_and_one_more_gives_9() {
    for (users, permissions) in [(32, 64), (16, 128)] {
        let mut draft = extremes::full(users + 1, permissions);
        draft.held[users].fill(false);
        assert_eq!(Session::fresh().load(&draft.bytes()).map(|answer| answer.grants), Ok(2_048));
        draft.held[users][permissions - 1] = true;
        assert_eq!(load_number(&draft.bytes()), 9);
    }
}
