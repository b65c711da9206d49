//! A long search: one session searched round after round, with a line about each round for the person who waits.

use crate::implementation::Implementation;
use crate::limits;
use crate::refusal::Refusal;
use crate::roles::State;
use crate::session::SearchAnswer;

/// The budget of a round.
pub const ROUND_STEPS: u32 = 100_000_000;

/// Rounds where nothing says how many.
pub const DEFAULT_ROUNDS: u32 = 3_600;

/// The rounds of a sheet, each made when it is asked for. The first one that does not answer `open` is the last.
pub struct Rounds<Kind> {
    session: Kind,
    rounds_left: u32,
    steps: u64,
}

/// One round: what its search answered, and the steps of all rounds up to it.
#[derive(Clone, Copy, Debug, PartialEq, Eq)]
pub struct Round {
    pub answer: SearchAnswer,
    pub steps: u64,
}

impl<Kind: Implementation> Rounds<Kind> {
    /// Loads and reduces the sheet, of which at most so many rounds are made.
    pub fn start(sheet: &[u8], rounds: u32) -> Result<Rounds<Kind>, Refusal> {
        let mut session = Kind::fresh();
        session.load(sheet)?;
        session.reduce()?;
        Ok(Rounds { session, rounds_left: rounds, steps: 0 })
    }

    /// The book after the rounds made so far.
    pub fn book(&mut self) -> Result<Vec<u8>, Refusal> {
        let mut buffer = vec![0; limits::SEARCH_BUFFER_BYTES];
        let count = self.session.write(&mut buffer)?;
        buffer.truncate(count);
        Ok(buffer)
    }
}

impl<Kind: Implementation> Iterator for Rounds<Kind> {
    type Item = Round;

    fn next(&mut self) -> Option<Round> {
        self.rounds_left = self.rounds_left.checked_sub(1)?;
        let answer = self.session.search(ROUND_STEPS).expect("the sheet is reduced");
        self.steps += u64::from(answer.steps);
        if answer.state != State::Open {
            self.rounds_left = 0;
        }
        Some(Round { answer, steps: self.steps })
    }
}

impl Round {
    /// The line about the round, which made so many steps a second.
    pub fn line(&self, rate: u64) -> String {
        let SearchAnswer { roles, bound, state, .. } = self.answer;
        let (steps, gained, word) = (self.steps, self.answer.depth_gained(), state.word());
        format!(
            "{steps} steps so far, depth gained {gained}, {roles} roles, bound {bound}, {word}, {rate} steps a second"
        )
    }
}
