//! The session, changed in place.

use second::checker::CheckAnswer;
use second::implementation::Implementation;
use second::machine::Steps;
use second::refusal::Refusal;
use second::roles::State;
use second::session::{LoadAnswer, ReduceAnswer, SearchAnswer};

use crate::book::{Counts, book_length, write_book};
use crate::checker;
use crate::cover::Placement;
use crate::kernel::Kernel;
use crate::machine::Machine;
use crate::newcomer;
use crate::reduction::Reduction;
use crate::roles::Matrices;
use crate::sheet::Sheet;
use crate::witness::Witness;

/// A session. All its room is made once.
#[derive(Clone, Debug)]
pub struct Session {
    stage: Stage,
    room: Box<Room>,
}

/// How much of the room means something.
#[derive(Clone, Copy, Debug, PartialEq, Eq)]
enum Stage {
    NoSheet,
    /// The accepted sheet alone.
    NotReduced,
    /// All of it.
    Reduced,
}

#[derive(Clone, Debug)]
struct Room {
    /// The accepted sheet, and room to read another, so that a refused one leaves the accepted one.
    sheets: [Sheet; 2],
    accepted: usize,
    reduction: Reduction,
    kernel: Kernel,
    witness: Witness,
    best: Placement,
    machine: Machine,
}

impl Implementation for Session {
    fn fresh() -> Session {
        let room = Room {
            sheets: [Sheet::empty(), Sheet::empty()],
            accepted: 0,
            reduction: Reduction::none(),
            kernel: Kernel::none(),
            witness: Witness::none(),
            best: Placement::none(),
            machine: Machine::none(),
        };
        Session { stage: Stage::NoSheet, room: Box::new(room) }
    }

    fn load(&mut self, sheet: &[u8]) -> Result<LoadAnswer, Refusal> {
        let other = 1 - self.room.accepted;
        self.room.sheets[other].read(sheet)?;
        self.room.accepted = other;
        self.stage = Stage::NotReduced;
        Ok(self.room.load_answer())
    }

    fn reduce(&mut self) -> Result<ReduceAnswer, Refusal> {
        if self.stage == Stage::NotReduced {
            self.room.prepare();
            self.stage = Stage::Reduced;
        }
        let room = self.reduced()?;
        Ok(ReduceAnswer { kernel: room.kernel.count, witness: room.witness.count })
    }

    fn search(&mut self, budget: u32) -> Result<SearchAnswer, Refusal> {
        let room = self.reduced()?;
        let Steps { made, placed, taken_back, closed } =
            room.machine.run(room.kernel.count, &mut room.best, budget);
        let Counts { roles, bound, state } = room.counts();
        Ok(SearchAnswer { steps: made, placed, taken_back, closed, roles, bound, state })
    }

    fn write(&mut self, buffer: &mut [u8]) -> Result<usize, Refusal> {
        let room = self.reduced()?;
        let (sheet, counts, witness) = (room.sheet(), room.counts(), room.witness.cells());
        let length = book_length(sheet, &counts, witness);
        let book = buffer.get_mut(..length).ok_or(Refusal::BufferLength)?;
        let matrices = Matrices::of(sheet, &room.kernel, &room.best);
        write_book(book, sheet, &counts, &matrices, witness);
        Ok(length)
    }

    fn check(sheet: &[u8], book: &[u8]) -> Result<CheckAnswer, Refusal> {
        checker::check(sheet, book)
    }

    fn newcomer(sheet: &[u8], book: &[u8], line: &[u8], buffer: &mut [u8]) -> Result<usize, Refusal> {
        newcomer::newcomer(sheet, book, line, buffer)
    }
}

impl Session {
    /// The room of a reduced sheet, or the first cause to refuse a call where there is none.
    fn reduced(&mut self) -> Result<&mut Room, Refusal> {
        match self.stage {
            Stage::NoSheet => Err(Refusal::NoSheet),
            Stage::NotReduced => Err(Refusal::NotReduced),
            Stage::Reduced => Ok(&mut self.room),
        }
    }
}

impl Room {
    fn sheet(&self) -> &Sheet {
        &self.sheets[self.accepted]
    }

    /// Reduces the accepted sheet and makes the first cover.
    fn prepare(&mut self) {
        let sheet = &self.sheets[self.accepted];
        self.reduction.reduce(sheet);
        self.kernel.list(sheet, &self.reduction);
        self.witness.find(sheet, &self.reduction, &self.kernel);
        self.best.find_first_best(sheet, &self.kernel);
        let target = self.witness.count - self.reduction.single_count;
        self.machine.start(sheet, &self.kernel, &self.best, target);
    }

    fn load_answer(&self) -> LoadAnswer {
        LoadAnswer {
            users: self.sheet().users.count(),
            permissions: self.sheet().permissions.count(),
            grants: self.sheet().grants,
        }
    }

    fn counts(&self) -> Counts {
        let roles = self.best.count + self.reduction.single_count;
        let state = State::of(roles, self.witness.count, self.machine.finished);
        Counts { roles, bound: state.bound(roles, self.witness.count), state }
    }
}
