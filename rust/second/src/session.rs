//! The session: loads, reductions, searches and writings, each starting where the call before left it.

use std::mem;

use crate::book::Book;
use crate::cover;
use crate::grants::{self, Grant};
use crate::machine::{Machine, Steps, Task};
use crate::reduction::Reduction;
use crate::refusal::Refusal;
use crate::roles::{self, State};
use crate::sheet::Sheet;
use crate::witness;

/// What an accepted load answers.
#[derive(Clone, Copy, Debug, PartialEq, Eq)]
pub struct LoadAnswer {
    pub users: usize,
    pub permissions: usize,
    pub grants: usize,
}

/// What an accepted reduction answers.
#[derive(Clone, Copy, Debug, PartialEq, Eq)]
pub struct ReduceAnswer {
    pub kernel: usize,
    pub witness: usize,
}

/// What an accepted search answers: its steps, how many of them placed a grant, took one back or closed the search, and
/// what there is after them.
#[derive(Clone, Copy, Debug, PartialEq, Eq)]
pub struct SearchAnswer {
    pub steps: u32,
    pub placed: u32,
    pub taken_back: u32,
    pub closed: u32,
    pub roles: usize,
    pub bound: usize,
    pub state: State,
}

impl SearchAnswer {
    /// How much deeper the search is than before; below its start that is negative.
    pub fn depth_gained(&self) -> i64 {
        i64::from(self.placed) - i64::from(self.taken_back)
    }
}

/// A session; the default one is fresh.
#[derive(Clone, Debug, Default, PartialEq, Eq)]
pub enum Session {
    /// No sheet was accepted yet.
    #[default]
    NoSheet,
    /// The last accepted sheet is not yet reduced.
    NotReduced(Sheet),
    /// The last accepted sheet is reduced.
    Reduced(Reduced),
}

/// A sheet, what its reduction found out, and how far it has been searched.
#[derive(Clone, Debug, PartialEq, Eq)]
pub struct Reduced {
    sheet: Sheet,
    reduction: Reduction,
    witness: Vec<Grant>,
    machine: Machine,
}

impl Session {
    pub fn fresh() -> Session {
        Session::default()
    }

    /// Puts a sheet, not reduced, in place of the former one.
    pub fn load(&mut self, sheet: &[u8]) -> Result<LoadAnswer, Refusal> {
        let sheet = Sheet::read(sheet)?;
        let answer = load_answer(&sheet);
        *self = Session::NotReduced(sheet);
        Ok(answer)
    }

    /// Reduces the sheet and makes the first cover, from which the search starts. A reduced sheet stays as it is, and
    /// so does its search.
    pub fn reduce(&mut self) -> Result<ReduceAnswer, Refusal> {
        let reduced = match mem::take(self) {
            Session::NoSheet => return Err(Refusal::NoSheet),
            Session::NotReduced(sheet) => Reduced::of(sheet),
            Session::Reduced(reduced) => reduced,
        };
        let answer = reduced.reduce_answer();
        *self = Session::Reduced(reduced);
        Ok(answer)
    }

    /// Moves the search forward by at most this many steps. Where there is none, no step is made.
    pub fn search(&mut self, budget: u32) -> Result<SearchAnswer, Refusal> {
        let steps =
            if let Session::Reduced(reduced) = self { reduced.search(budget) } else { Steps::default() };
        Ok(self.reduced()?.search_answer(steps))
    }

    /// Writes the book to the front of the buffer and gives its byte count; the bytes past it stay.
    pub fn write(&self, buffer: &mut [u8]) -> Result<usize, Refusal> {
        let reduced = self.reduced()?;
        reduced.book().write(&reduced.sheet, buffer)
    }

    /// The reduced sheet, or the first cause to refuse a search or a writing where there is none.
    pub fn reduced(&self) -> Result<&Reduced, Refusal> {
        match self {
            Session::NoSheet => Err(Refusal::NoSheet),
            Session::NotReduced(_) => Err(Refusal::NotReduced),
            Session::Reduced(reduced) => Ok(reduced),
        }
    }
}

/// Loads, reduces and searches a sheet in a session of its own and writes its book to the front of the buffer.
pub fn book(sheet: &[u8], budget: u32, buffer: &mut [u8]) -> Result<usize, Refusal> {
    let mut session = Session::fresh();
    session.load(sheet)?;
    session.reduce()?;
    session.search(budget)?;
    session.write(buffer)
}

fn load_answer(sheet: &Sheet) -> LoadAnswer {
    LoadAnswer {
        users: sheet.users().count(),
        permissions: sheet.permissions().count(),
        grants: grants::all(sheet).len(),
    }
}

impl Reduced {
    fn of(sheet: Sheet) -> Reduced {
        let reduction = Reduction::of(&sheet);
        let witness = witness::of(&sheet, &reduction);
        let first_best = cover::first_best(&sheet, &reduction.kernel);
        let machine = Machine::start(&task(&sheet, &reduction, &witness), first_best);
        Reduced { sheet, reduction, witness, machine }
    }

    pub fn sheet(&self) -> &Sheet {
        &self.sheet
    }

    pub fn reduction(&self) -> &Reduction {
        &self.reduction
    }

    /// The witness in grant order.
    pub fn witness(&self) -> &[Grant] {
        &self.witness
    }

    pub fn machine(&self) -> &Machine {
        &self.machine
    }

    /// The book as a writing would bring it out now.
    pub fn book_bytes(&self) -> Vec<u8> {
        self.book().render(&self.sheet)
    }

    fn book(&self) -> Book {
        let roles = roles::roles(&self.reduction, self.machine.best());
        let state = self.state(roles.len());
        Book {
            bound: state.bound(roles.len(), self.witness.len()),
            state,
            roles,
            witness: self.witness.clone(),
        }
    }

    fn search(&mut self, budget: u32) -> Steps {
        let task = task(&self.sheet, &self.reduction, &self.witness);
        self.machine.run(&task, budget)
    }

    fn state(&self, role_count: usize) -> State {
        State::of(role_count, self.witness.len(), self.machine.is_finished())
    }

    fn reduce_answer(&self) -> ReduceAnswer {
        ReduceAnswer { kernel: self.reduction.kernel.len(), witness: self.witness.len() }
    }

    /// Each class of the kernel and each single is a role.
    fn search_answer(&self, steps: Steps) -> SearchAnswer {
        let roles = self.machine.best().count + self.reduction.singles().count();
        let state = self.state(roles);
        SearchAnswer {
            steps: steps.made,
            placed: steps.placed,
            taken_back: steps.taken_back,
            closed: steps.closed,
            roles,
            bound: state.bound(roles, self.witness.len()),
            state,
        }
    }
}

fn task<'a>(sheet: &'a Sheet, reduction: &'a Reduction, witness: &[Grant]) -> Task<'a> {
    Task {
        sheet,
        kernel: &reduction.kernel,
        single_count: reduction.singles().count(),
        witness_count: witness.len(),
    }
}
