//! Role counts and bounds against the smallest number of roles, found from the two matrices alone.

use second::roles::State;
use second::session::SearchAnswer;
use trials::brute;
use trials::cases::cases;
use trials::draft::Draft;
use trials::families::{self, crown};

use crate::support::{reduced, session_with};

/// Steps within which nearly all of these small sheets are finished.
const BUDGET: u32 = 100_000;

/// The bound is never above the smallest number and the roles never below it; both are the number unless the
/// book is open.
fn judge(answer: &SearchAnswer, smallest: usize, draft: &Draft) {
    assert!(answer.bound <= smallest && smallest <= answer.roles, "{smallest} {answer:?} {draft:?}");
    if answer.state != State::Open {
        assert_eq!((answer.bound, answer.roles), (smallest, smallest), "{answer:?} {draft:?}");
    }
}

/// The sheet whose ones are these bits, by user and then by permission.
fn numbered(users: usize, permissions: usize, cells: usize) -> Draft {
    Draft::plain(users, permissions, |user, permission| cells >> (user * permissions + permission) & 1 == 1)
}

/// Judges every sheet of a size, and how many of them need a search.
fn judge_all(users: usize, permissions: usize) -> usize {
    let smallest = brute::smallest_of_all(users, permissions);
    let mut searched = 0;
    for (cells, smallest) in smallest.iter().enumerate() {
        let draft = numbered(users, permissions, cells);
        let mut session = session_with(&draft.bytes());
        judge(&session.search(0).expect("the sheet is reduced"), *smallest, &draft);
        let answer = session.search(BUDGET).expect("the sheet is reduced");
        judge(&answer, *smallest, &draft);
        assert_ne!(answer.state, State::Open, "{draft:?}");
        searched += usize::from(answer.state == State::Searched);
    }
    searched
}

#[test]
fn every_sheet_of_three_users_and_three_permissions() {
    assert_eq!(judge_all(3, 3), 0);
}

/// There are 24 ways to let each user lack one permission of their own. These sheets need a search, and so do
/// those with one more of their 12 grants missing.
#[test]
fn every_sheet_of_four_users_and_four_permissions() {
    assert_eq!(judge_all(4, 4), 24 + 24 * 12);
}

#[test]
fn every_sheet_of_five_users_and_three_permissions() {
    assert_eq!(judge_all(5, 3), 0);
}

#[test]
fn random_sheets_of_up_to_six_users_and_permissions() {
    let (mut searched, mut open) = (0, 0);
    cases(5_000, |random| {
        let (users, permissions) = (random.between(3, 6), random.between(3, 6));
        let density = random.between(20, 90);
        let draft = families::random(random, users, permissions, density);
        let smallest = brute::smallest(&draft.held);
        let mut session = session_with(&draft.bytes());
        judge(&session.search(0).expect("the sheet is reduced"), smallest, &draft);
        judge(&session.search(random.below(50) as u32).expect("the sheet is reduced"), smallest, &draft);
        let answer = session.search(BUDGET).expect("the sheet is reduced");
        judge(&answer, smallest, &draft);
        searched += usize::from(answer.state == State::Searched);
        open += usize::from(answer.state == State::Open);
    });
    assert!(searched > 20 && open < 20, "{searched} searched, {open} open");
}

#[test]
fn structured_sheets() {
    cases(1_500, |random| {
        let draft = families::any(random, 5);
        if draft.users.len() * draft.permissions.len() > 64 {
            return;
        }
        let mut session = session_with(&draft.bytes());
        let answer = session.search(BUDGET).expect("the sheet is reduced");
        judge(&answer, brute::smallest(&draft.held), &draft);
    });
}

/// The smallest role set of n users each lacking their own permission has the lowest r such that n subsets of
/// r things can be chosen with none inside another (Sperner): r over half of r is at least n.
#[test]
fn crowns_have_the_known_smallest_numbers() {
    let known =
        [(3, 3), (4, 4), (5, 4), (6, 4), (7, 5), (10, 5), (11, 6), (12, 6), (20, 6), (21, 7), (45, 8)];
    for (users, smallest) in known {
        let draft = crown(users);
        let mut session = session_with(&draft.bytes());
        judge(&session.search(BUDGET).expect("the sheet is reduced"), smallest, &draft);
    }
    for users in 3..=6 {
        let mut session = session_with(&crown(users).bytes());
        assert_ne!(session.search(BUDGET).map(|answer| answer.state), Ok(State::Open));
        assert!(reduced(&session).machine().is_finished());
    }
}

#[test]
fn the_two_ways_of_finding_the_smallest_number_agree() {
    for (users, permissions) in [(4, 4), (2, 5), (5, 2), (3, 4)] {
        let all = brute::smallest_of_all(users, permissions);
        for (cells, smallest) in all.iter().enumerate() {
            let draft = numbered(users, permissions, cells);
            assert_eq!(brute::smallest(&draft.held), *smallest, "{draft:?}");
        }
    }
}
