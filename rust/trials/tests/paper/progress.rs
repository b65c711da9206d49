//! Progress: what is left of a search at most, that every step lowers it, and from when on budgets count.

use second::roles::State;
use trials::cases::cases;
use trials::families::crown;

use crate::support::{WATCHED_STEPS, loaded, reduced, unfinished};

/// What is left to do at most, counted so that every step lowers it by at least one. At the start it is 2 (1!
/// + .. + k!) + 1, so budgets of that sum finish every search.
fn steps_left_at_most(kernel: usize, placed: &[usize], next_try: usize) -> u128 {
    let mut below = vec![0_u128; kernel + 1];
    for depth in (0..kernel).rev() {
        below[depth] = (depth as u128 + 1) * (1 + below[depth + 1]);
    }
    let spread = |depth: usize, tries: usize| tries as u128 * 2 * (1 + below[depth + 1]);
    let placed_part: u128 =
        placed.iter().enumerate().map(|(depth, class)| 1 + spread(depth, depth - class)).sum();
    let depth = placed.len();
    let open_part = if depth < kernel { spread(depth, depth + 1 - next_try) } else { 0 };
    1 + placed_part + open_part
}

#[test]
fn every_step_lowers_what_is_left() {
    cases(200, |random| {
        let (_, mut session) = unfinished(random);
        let kernel = reduced(&session).reduction().kernel.len();
        let mut left = steps_left_at_most(kernel, &[], 0);
        let factorials = (1..=kernel as u128).scan(1, |product, factor| {
            *product *= factor;
            Some(*product)
        });
        assert_eq!(left, 2 * factorials.sum::<u128>() + 1);
        for _ in 0..WATCHED_STEPS {
            session.search(1).expect("the sheet is reduced");
            let machine = reduced(&session).machine();
            if machine.is_finished() {
                break;
            }
            let now = steps_left_at_most(kernel, machine.placed(), machine.next_try());
            assert!(1 <= now && now < left, "{:?}", machine.placed());
            left = now;
        }
    });
}

/// Budgets of the sum above, given since the first reduction after the load, end the search of the four users in
/// whatever portions they come, with further reductions and refused loads between them. Budgets given before that
/// reduction end none.
#[test]
fn budgets_since_the_first_reduction_end_the_search() {
    let sheet = crown(4).bytes();
    let enough = u32::try_from(steps_left_at_most(12, &[], 0)).expect("the sum is a budget");
    assert_eq!(enough, 1_045_912_627);
    for portions in [vec![enough], vec![enough - 1, 1], vec![1, 99, enough - 100], vec![7; 18]] {
        let mut session = loaded(&sheet);
        session.search(enough).expect_err("the sheet is not reduced");
        let kernel = session.reduce().map(|counts| counts.kernel);
        assert_eq!(kernel, Ok(12));
        assert_eq!(session.search(0).map(|answer| (answer.steps, answer.state)), Ok((0, State::Open)));
        let mut steps = 0;
        for portion in portions {
            session.reduce().expect("a sheet is loaded");
            session.load(b"").expect_err("the sheet is empty");
            steps += session.search(portion).expect("the sheet is reduced").steps;
        }
        assert_eq!(steps, 125);
        assert!(reduced(&session).machine().is_finished());
    }
}
