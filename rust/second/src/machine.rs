//! The search machine: one step places one grant, takes one back, or closes the search.

use crate::cover::Placement;
use crate::grants::{Grant, fits};
use crate::limits;
use crate::sheet::Sheet;

/// What the machine works on; no step changes it.
#[derive(Clone, Copy, Debug)]
pub struct Task<'a> {
    pub sheet: &'a Sheet,
    pub kernel: &'a [Grant],
    pub single_count: usize,
    pub witness_count: usize,
}

impl Task<'_> {
    /// No role set is smaller than the witness, so a placement that meets it need not be improved.
    fn is_met_by(&self, class_count: usize) -> bool {
        class_count + self.single_count == self.witness_count
    }
}

/// What a step was.
#[derive(Clone, Copy, Debug, PartialEq, Eq, PartialOrd, Ord, Hash)]
pub enum StepKind {
    /// It placed a grant. That is also said of the last grant, even where its placement finishes the machine.
    Placed,
    /// It took the last placed grant back.
    TookBack,
    /// It closed the search, with no grant left to take back.
    Closed,
}

/// How many steps were made, and how many of each kind.
#[derive(Clone, Copy, Debug, Default, PartialEq, Eq)]
pub struct Steps {
    pub made: u32,
    pub placed: u32,
    pub taken_back: u32,
    pub closed: u32,
}

impl Steps {
    fn count(&mut self, kind: StepKind) {
        self.made += 1;
        match kind {
            StepKind::Placed => self.placed += 1,
            StepKind::TookBack => self.taken_back += 1,
            StepKind::Closed => self.closed += 1,
        }
    }
}

/// The state of the machine. Its depth is the number of grants placed.
#[derive(Clone, Debug, PartialEq, Eq)]
pub struct Machine {
    placed: Vec<usize>,
    members: Vec<Vec<Grant>>,
    next_try: usize,
    best: Placement,
    finished: bool,
}

impl Machine {
    pub fn start(task: &Task<'_>, first_best: Placement) -> Machine {
        Machine {
            placed: Vec::new(),
            members: Vec::new(),
            next_try: 0,
            finished: task.is_met_by(first_best.count),
            best: first_best,
        }
    }

    /// The classes of the first kernel grants, as far as they are placed.
    pub fn placed(&self) -> &[usize] {
        &self.placed
    }

    pub fn next_try(&self) -> usize {
        self.next_try
    }

    pub fn best(&self) -> &Placement {
        &self.best
    }

    pub fn is_finished(&self) -> bool {
        self.finished
    }

    /// Makes as many steps as the budget allows or as are left, and none on a kernel too large to search.
    /// Counts what they were.
    pub fn run(&mut self, task: &Task<'_>, budget: u32) -> Steps {
        let mut steps = Steps::default();
        if task.kernel.len() > limits::SEARCHED_KERNEL {
            return steps;
        }
        while steps.made < budget && !self.finished {
            steps.count(self.step(task));
        }
        steps
    }

    /// One step of a machine that is not finished. Says what it was.
    pub fn step(&mut self, task: &Task<'_>) -> StepKind {
        debug_assert!(!self.finished, "a finished machine makes no step");
        match self.class_to_place(task) {
            Some(class) => self.place(task, class),
            None => self.take_back(),
        }
    }

    /// The number of classes in use.
    fn used(&self) -> usize {
        self.members.len()
    }

    /// The lowest class, from the next try up to a new one, that stays below the best and that the next grant
    /// fits.
    fn class_to_place(&self, task: &Task<'_>) -> Option<usize> {
        let grant = *task.kernel.get(self.placed.len())?;
        let used = self.used();
        (self.next_try..=used).find(|class| {
            used.max(class + 1) < self.best.count && self.fits_members(task.sheet, grant, *class)
        })
    }

    /// A new class has no members, so any grant fits them.
    fn fits_members(&self, sheet: &Sheet, grant: Grant, class: usize) -> bool {
        self.members.get(class).is_none_or(|members| members.iter().all(|member| fits(sheet, *member, grant)))
    }

    fn place(&mut self, task: &Task<'_>, class: usize) -> StepKind {
        if class == self.used() {
            self.members.push(Vec::new());
        }
        self.members[class].push(task.kernel[self.placed.len()]);
        self.placed.push(class);
        self.next_try = 0;
        if self.placed.len() == task.kernel.len() {
            self.best = Placement { classes: self.placed.clone(), count: self.used() };
            self.finished = task.is_met_by(self.best.count);
        }
        StepKind::Placed
    }

    /// Takes the last placed grant back, or closes the search if there is none.
    fn take_back(&mut self) -> StepKind {
        let Some(class) = self.placed.pop() else {
            self.finished = true;
            return StepKind::Closed;
        };
        self.members[class].pop();
        if self.members[class].is_empty() {
            self.members.pop();
        }
        self.next_try = class + 1;
        StepKind::TookBack
    }
}
