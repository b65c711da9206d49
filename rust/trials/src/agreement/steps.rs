//! What the steps were: the counts of searches step by step, in parts, and with budgets about as large as it takes.
//! They are those that the restated search has over the same steps.

use second::implementation::Implementation;
use second::machine::StepKind;
use second::roles::State;
use second::session::SearchAnswer;

use crate::agreement::Pair;
use crate::cases::cases;
use crate::draft::Draft;
use crate::random::Random;
use crate::restated::whole::Prepared;
use crate::searches::worked_out;
use crate::steps::{NO_STEPS, counts, search_answer, sum};
use crate::tally::Tally;

/// Steps after which a trial of single steps ends.
const WATCHED_STEPS: u64 = 300;

/// Steps within which most of the sheets are finished that have something to search.
const WHOLE_STEPS: u64 = 20_000;

/// Searches of one step each: a step is of one kind, and where nothing is left there is none. The step that meets the
/// witness placed a grant.
pub fn single_steps_agree<Other: Implementation>(count: u64, sheet: impl Fn(&mut Random) -> Draft) {
    let mut seen = Tally::default();
    cases(count, |random| {
        let draft = sheet(random);
        let prepared = Prepared::of(&draft);
        let whole = prepared.search(WATCHED_STEPS);
        let mut pair = Pair::<Other>::reduced(&draft);
        for number in 0..WATCHED_STEPS.min(whole.steps + 2) {
            let answer = pair.search(1).expect("the sheet is reduced");
            assert_eq!(counts(&answer), whole.counts(number..number + 1), "{draft:?}");
            seen.note((kind(&answer), answer.state.word()));
        }
    });
    let open = State::Open.word();
    seen.expect([(Some(StepKind::Placed), open), (Some(StepKind::TookBack), open)], 100);
    let finished = [State::Searched, State::Witnessed].map(State::word);
    seen.expect([(Some(StepKind::Closed), finished[0]), (Some(StepKind::Placed), finished[1])], 5);
    seen.expect(finished.map(|word| (None, word)), 5);
}

/// What the only step of a search was, if it made one.
fn kind(answer: &SearchAnswer) -> Option<StepKind> {
    match counts(answer) {
        [1, 1, 0, 0] => Some(StepKind::Placed),
        [1, 0, 1, 0] => Some(StepKind::TookBack),
        [1, 0, 0, 1] => Some(StepKind::Closed),
        NO_STEPS => None,
        counts => panic!("one step was counted as {counts:?}"),
    }
}

/// A search in parts of any budgets, 0 and 1 among them: each part counts its own steps, and together they count what
/// one search counts. Some parts end deeper than they start, some as deep, and some fall below their start.
pub fn parts_agree<Other: Implementation>(count: u64, sheet: impl Fn(&mut Random) -> Draft) {
    let mut gained = Tally::default();
    cases(count, |random| {
        let draft = sheet(random);
        let budgets = any_budgets(random);
        let all = budgets.iter().sum();
        let prepared = Prepared::of(&draft);
        let whole = prepared.search(u64::from(all));
        let (mut in_parts, mut in_one) = (Pair::<Other>::reduced(&draft), Pair::<Other>::reduced(&draft));
        let mut given = 0;
        let parts = budgets.map(|budget| {
            let part = in_parts.search(budget).expect("the sheet is reduced");
            assert_eq!(counts(&part), whole.counts(given..given + u64::from(budget)), "{draft:?}");
            given += u64::from(budget);
            gained.note((part.steps > 0, part.depth_gained().signum()));
            counts(&part)
        });
        let answer = in_one.search(all).expect("the sheet is reduced");
        assert_eq!(sum(parts), counts(&answer), "{draft:?}");
        assert_eq!(in_parts.book(), in_one.book(), "{draft:?}");
    });
    gained.expect([(true, -1), (true, 0), (true, 1), (false, 0)], 20);
}

fn any_budgets(random: &mut Random) -> [u32; 9] {
    let mut budgets = [0, 1, 1, 2, 9, 30, 30, 300, 3_000].map(|most| random.between(most / 2, most) as u32);
    random.shuffle(&mut budgets);
    budgets
}

/// Searches of as many steps as it takes, of one less and of one more, of none, of one and of the largest budget. The
/// search that ends it is the only one that may close, and after it no step is counted.
pub fn last_steps_agree<Other: Implementation>(count: u64, sheet: impl Fn(&mut Random) -> Draft) {
    let mut ends = Tally::default();
    cases(count, |random| {
        let draft = sheet(random);
        let prepared = Prepared::of(&draft);
        let whole = prepared.search(WHOLE_STEPS);
        let steps = whole.steps as u32;
        if !whole.finished || steps == 0 {
            ends.note(None);
            return;
        }
        for budget in [0, 1, steps - 1, steps, steps + 1, u32::MAX] {
            let mut pair = Pair::<Other>::reduced(&draft);
            let mut searched = |budget| pair.search(budget).expect("the sheet is reduced");
            let first = searched(budget);
            assert_eq!(counts(&first), whole.counts(0..u64::from(budget)), "{draft:?}");
            assert_eq!(first.state == State::Open, budget < steps, "{draft:?}");
            let rest = searched(u32::MAX);
            assert_eq!(counts(&rest), whole.counts(u64::from(budget)..u64::MAX), "{draft:?}");
            for budget in [0, 1, u32::MAX] {
                assert_eq!(counts(&searched(budget)), NO_STEPS, "{draft:?}");
            }
            ends.note(Some(rest.state.word()));
        }
    });
    ends.expect([State::Searched, State::Witnessed].map(|state| Some(state.word())), 20);
}

/// The searches that are known, whole and cut in two, at every place where there are few.
pub fn worked_out_searches_agree<Other: Implementation>() {
    for (draft, expected) in worked_out() {
        assert_eq!(Pair::<Other>::reduced(&draft).search(u32::MAX), Ok(expected), "{draft:?}");
        let cuts = (0..=expected.steps).step_by(expected.steps as usize / 125 + 1);
        for cut in cuts {
            let mut pair = Pair::<Other>::reduced(&draft);
            let parts = [cut, u32::MAX].map(|budget| pair.search(budget).expect("the sheet is reduced"));
            let together = sum(parts.map(|part| counts(&part)));
            let SearchAnswer { roles, bound, state, .. } = parts[1];
            assert_eq!(search_answer(together, roles, bound, state), expected, "{draft:?} {cut}");
        }
    }
}
