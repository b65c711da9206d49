//! Kernels of 127, 128 and 129 grants: up to 128 they are searched, above that they are not.

use second::checker::check;
use second::roles::State;
use second::session::Session;
use trials::cases::cases;
use trials::draft::Draft;
use trials::kernels::with_kernel;
use trials::random::Random;
use trials::restated::whole::Prepared;
use trials::steps::{NO_STEPS, counts, judged_search, search_answer};

use crate::support::{check_answer, reduced, session_with};

/// A sheet with a kernel of this size that is not finished by its first cover.
fn unfinished(random: &mut Random, size: usize) -> (Draft, Session) {
    random.until_found(|random| {
        let draft = with_kernel(random, size);
        let session = session_with(&draft.bytes());
        (!reduced(&session).machine().is_finished()).then_some((draft, session))
    })
}

#[test]
fn kernels_of_127_and_128_are_searched_as_the_recursion_does() {
    cases(4, |random| {
        for size in [127, 128] {
            let (draft, mut session) = unfinished(random, size);
            assert_eq!(reduced(&session).reduction().kernel.len(), size);
            let prepared = Prepared::of(&draft);
            let expected = prepared.search(30_000);
            let parts = [10_000, 20_000]
                .map(|budget| counts(&judged_search(&mut session, budget).expect("the sheet is reduced")));
            let machine = reduced(&session).machine();
            assert_eq!(u64::from(parts[0][0] + parts[1][0]), expected.steps);
            assert_eq!(parts, [expected.counts(0..10_000), expected.counts(10_000..30_000)]);
            assert_eq!(machine.placed(), expected.placed);
            assert_eq!(machine.best().classes, expected.best);
            assert_eq!(reduced(&session).book_bytes(), prepared.book(&expected).as_bytes());
        }
    });
}

#[test]
fn kernel_of_129_makes_no_step_and_its_book_stands() {
    cases(4, |random| {
        let (draft, mut session) = unfinished(random, 129);
        assert_eq!(reduced(&session).reduction().kernel.len(), 129);
        let before = session.clone();
        let witness = reduced(&session).witness().len();
        let roles =
            reduced(&session).machine().best().count + reduced(&session).reduction().singles().count();
        for budget in [0, 1, 1_000, u32::MAX] {
            assert_eq!(session.search(budget), Ok(search_answer(NO_STEPS, roles, witness, State::Open)));
            assert_eq!(session, before);
        }
        let checked = check(&draft.bytes(), &reduced(&session).book_bytes());
        assert_eq!(checked, Ok(check_answer(roles, witness)));
    });
}
