//! What the steps of a search were: its four counts, and the laws that bind them.

use second::machine::Machine;
use second::refusal::Refusal;
use second::roles::State;
use second::session::{SearchAnswer, Session};

/// Steps, placed, taken back, closed.
pub type Counts = [u32; 4];

/// The counts of a search that makes no step.
pub const NO_STEPS: Counts = [0; 4];

pub fn counts(answer: &SearchAnswer) -> Counts {
    [answer.steps, answer.placed, answer.taken_back, answer.closed]
}

/// The answer of a search with these counts.
pub fn search_answer(counts: Counts, roles: usize, bound: usize, state: State) -> SearchAnswer {
    let [steps, placed, taken_back, closed] = counts;
    SearchAnswer { steps, placed, taken_back, closed, roles, bound, state }
}

/// The counts of several searches together.
pub fn sum(searches: impl IntoIterator<Item = Counts>) -> Counts {
    searches.into_iter().fold(NO_STEPS, |sum, counts| std::array::from_fn(|index| sum[index] + counts[index]))
}

/// Makes the search and judges its counts by where the machine stands before it and after it.
pub fn judged_search(session: &mut Session, budget: u32) -> Result<SearchAnswer, Refusal> {
    let before = session.reduced().ok().map(|reduced| Place::of(reduced.machine()));
    let answer = session.search(budget)?;
    let before = before.expect("a search is refused where the sheet is not reduced");
    let after = Place::of(session.reduced()?.machine());
    judge(before, after, budget, &answer);
    Ok(answer)
}

/// As much of a machine as the counts depend on.
#[derive(Clone, Copy, Debug, PartialEq, Eq)]
struct Place {
    depth: usize,
    is_finished: bool,
}

impl Place {
    fn of(machine: &Machine) -> Place {
        Place { depth: machine.placed().len(), is_finished: machine.is_finished() }
    }
}

/// The three kinds add up to the steps, and what was placed less what was taken back is the depth gained. A search
/// closes if it finds the machine unfinished and leaves it finished with no grant placed, and then it says `searched`;
/// it closes once, and one that begins finished makes no step.
fn judge(before: Place, after: Place, budget: u32, answer: &SearchAnswer) {
    let [steps, placed, taken_back, closed] = counts(answer).map(u64::from);
    let context = || format!("{answer:?} {before:?} {after:?}");
    assert_eq!(placed + taken_back + closed, steps, "{}", context());
    assert_eq!(after.depth as u64 + taken_back, before.depth as u64 + placed, "{}", context());
    assert_eq!(answer.depth_gained(), after.depth as i64 - before.depth as i64, "{}", context());
    let closes = !before.is_finished && after.is_finished && after.depth == 0;
    assert_eq!(closed, u64::from(closes), "{}", context());
    assert_eq!(closes, steps > 0 && answer.state == State::Searched, "{}", context());
    assert!(steps <= u64::from(budget) && (steps == 0 || !before.is_finished), "{}", context());
}
