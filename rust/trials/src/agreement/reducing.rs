//! Reading without reducing: calls on a sheet that is not yet reduced, reductions made again, and loads between them.

use second::implementation::Implementation;
use second::refusal::Refusal;
use second::roles::State;
use second::session::{ReduceAnswer, SearchAnswer};

use crate::agreement::Pair;
use crate::cases::cases;
use crate::damage;
use crate::draft::Draft;
use crate::families;
use crate::random::Random;
use crate::restated::causes::lowest_cause;
use crate::sessions::first_book;
use crate::steps::{NO_STEPS, search_answer};
use crate::tally::Tally;

/// Without a sheet every call is refused by 10, whatever the buffer, and a refused load changes nothing about that.
pub fn calls_without_a_sheet_agree<Other: Implementation>(count: u64) {
    cases(count, |random| {
        let draft = families::any(random, 6);
        let mut pair = Pair::<Other>::fresh();
        for _ in 0..2 {
            assert_eq!(pair.reduce(), Err(Refusal::NoSheet));
            assert_refused(&mut pair, &draft, Refusal::NoSheet);
            pair.load(&refused_sheet(random, &draft)).expect_err("the sheet is damaged");
        }
    });
}

/// On a sheet that is not reduced searches and writings are refused by 16, whatever the buffer, also after a refused
/// load. After the reduction the search is where it starts.
pub fn sheets_not_reduced_agree<Other: Implementation>(count: u64, sheet: impl Fn(&mut Random) -> Draft) {
    let mut states = Tally::default();
    cases(count, |random| {
        let draft = sheet(random);
        let mut pair = Pair::<Other>::loaded(&draft);
        for _ in 0..2 {
            assert_refused(&mut pair, &draft, Refusal::NotReduced);
            pair.load(&refused_sheet(random, &draft)).expect_err("the sheet is damaged");
        }
        pair.reduce().expect("a sheet is loaded");
        let start = pair.search(0).expect("the sheet is reduced");
        assert_eq!(start.steps, 0, "{draft:?}");
        assert_eq!(pair.book(), first_book(&draft.bytes()), "{draft:?}");
        states.note(start.state.word());
    });
    states.expect([State::Open, State::Witnessed].map(State::word), 5);
}

/// A search goes on where it was, whatever reductions and refused loads come between its portions.
pub fn repeated_reductions_agree<Other: Implementation>(count: u64, sheet: impl Fn(&mut Random) -> Draft) {
    let mut went_on = Tally::default();
    cases(count, |random| {
        let draft = sheet(random);
        let (mut plain, mut repeated) = (Pair::<Other>::reduced(&draft), Pair::<Other>::loaded(&draft));
        let counts = repeated.reduce();
        for budget in any_budgets(random) {
            assert_eq!(repeated.reduce(), counts, "{draft:?}");
            let answer = repeated.search(budget);
            assert_eq!(answer, plain.search(budget), "{draft:?}");
            if random.percent(30) {
                repeated.load(&refused_sheet(random, &draft)).expect_err("the sheet is damaged");
            }
            went_on.note(answer.is_ok_and(|answer| answer.steps > 0 && answer.state == State::Open));
        }
        assert_eq!(repeated.reduce(), counts, "{draft:?}");
        assert_eq!(repeated.book(), plain.book(), "{draft:?}");
    });
    went_on.expect([true, false], 20);
}

/// An accepted load of the very same bytes leaves a sheet that is not reduced, and the search then starts anew.
pub fn reloaded_sheets_agree<Other: Implementation>(count: u64, sheet: impl Fn(&mut Random) -> Draft) {
    let mut searched = Tally::default();
    cases(count, |random| {
        let draft = sheet(random);
        let budgets = any_budgets(random);
        let mut pair = Pair::<Other>::loaded(&draft);
        let first = reduced_and_searched(&mut pair, &budgets);
        let book = pair.book();
        pair.load(&draft.bytes()).expect("the sheet is acceptable");
        assert_refused(&mut pair, &draft, Refusal::NotReduced);
        assert_eq!(reduced_and_searched(&mut pair, &budgets), first, "{draft:?}");
        assert_eq!(pair.book(), book, "{draft:?}");
        searched.note(first.1.iter().any(|answer| answer.steps > 0));
    });
    searched.expect([true, false], 5);
}

/// Sheets are loaded one after another, most of them without being reduced, some of them refused. What is reduced is
/// the last accepted one.
pub fn corrected_sheets_agree<Other: Implementation>(count: u64) {
    let mut left = Tally::default();
    cases(count, |random| {
        let mut pair = Pair::<Other>::fresh();
        let mut last = None;
        for _ in 0..5 {
            let draft = families::any(random, 8);
            if random.percent(40) {
                pair.load(&refused_sheet(random, &draft)).expect_err("the sheet is damaged");
                continue;
            }
            pair.load(&draft.bytes()).expect("the sheet is acceptable");
            let is_reduced = random.percent(20);
            if is_reduced {
                reduced_and_searched(&mut pair, &any_budgets(random));
            }
            last = Some((draft, is_reduced));
        }
        left.note(last.as_ref().map(|(_, is_reduced)| *is_reduced));
        match last {
            None => assert_refused(&mut pair, &families::crown(3), Refusal::NoSheet),
            Some((draft, false)) => {
                assert_refused(&mut pair, &draft, Refusal::NotReduced);
                pair.reduce().expect("a sheet is loaded");
                assert_eq!(pair.book(), first_book(&draft.bytes()), "{draft:?}");
            }
            Some((draft, true)) => {
                assert_eq!(pair.reduce(), Pair::<Other>::loaded(&draft).reduce(), "{draft:?}");
                pair.book();
            }
        }
    });
    left.expect([None, Some(false), Some(true)], 5);
}

/// Budgets count from the first reduction on. Those given before it, here as much as it takes and more, end no search:
/// four users each lacking their own permission are closed with step 125 after it.
pub fn budgets_before_the_reduction_agree<Other: Implementation>() {
    let found = |counts, bound, state| Ok(search_answer(counts, 4, bound, state));
    let counts = Ok(ReduceAnswer { kernel: 12, witness: 3 });
    let mut pair = Pair::<Other>::fresh();
    for _ in 0..2 {
        pair.load(&families::crown(4).bytes()).expect("the sheet is acceptable");
        for budget in [u32::MAX, 125, 1, 0, u32::MAX] {
            assert_eq!(pair.search(budget), Err(Refusal::NotReduced));
        }
        assert_eq!(pair.reduce(), counts);
        assert_eq!(pair.search(0), found(NO_STEPS, 3, State::Open));
        assert_eq!(pair.search(124), found([124, 62, 62, 0], 3, State::Open));
        assert_eq!(pair.reduce(), counts);
        assert_eq!(pair.search(u32::MAX), found([1, 0, 0, 1], 4, State::Searched));
        assert_eq!(pair.reduce(), counts);
        assert_eq!(pair.search(u32::MAX), found(NO_STEPS, 4, State::Searched));
    }
}

/// Searches of any budget, and writings into buffers without a byte, one byte shorter than the first book of the sheet,
/// just as long and longer, are all refused by this cause.
fn assert_refused<Other: Implementation>(pair: &mut Pair<Other>, draft: &Draft, refusal: Refusal) {
    let length = first_book(&draft.bytes()).len();
    pair.assert_refused(refusal, &[0, 1, length - 1, length, length + 100]);
}

/// The answers to a reduction and to searches with these budgets.
fn reduced_and_searched<Other: Implementation>(
    pair: &mut Pair<Other>,
    budgets: &[u32],
) -> (ReduceAnswer, Vec<SearchAnswer>) {
    let counts = pair.reduce().expect("a sheet is loaded");
    let searches = budgets.iter().map(|budget| pair.search(*budget).expect("the sheet is reduced"));
    (counts, searches.collect())
}

fn any_budgets(random: &mut Random) -> [u32; 4] {
    [0, 20, 200, 2_000].map(|most| random.between(0, most) as u32)
}

/// The sheet with damage that a load refuses.
fn refused_sheet(random: &mut Random, draft: &Draft) -> Vec<u8> {
    random.until_found(|random| {
        Some(damage::bytes(random, &draft.bytes())).filter(|sheet| lowest_cause(sheet).is_some())
    })
}
