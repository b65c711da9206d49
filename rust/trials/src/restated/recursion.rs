//! The search as a recursion over the kernel grants that counts its steps and notes the depth after each.

use std::cmp::Ordering;
use std::ops::Range;

use crate::restated::tables::{Table, class_count};
use crate::steps::{Counts, NO_STEPS};

/// The search at the moment when its steps are spent or it is finished.
pub struct Search<'a> {
    table: &'a Table,
    kernel: &'a [usize],
    /// The class count that no placement can be below; reaching it finishes the search.
    target: usize,
    steps_left: u64,
    pub steps: u64,
    /// How many grants were placed before the first step and after each step.
    depths: Vec<usize>,
    pub placed: Vec<usize>,
    pub best: Vec<usize>,
    pub finished: bool,
}

/// The search stops where it is: its steps are spent, or it is finished.
struct Stop;

impl<'a> Search<'a> {
    /// Searches from the first best with at most this many steps.
    pub fn run(
        table: &'a Table,
        kernel: &'a [usize],
        first_best: Vec<usize>,
        target: usize,
        steps: u64,
    ) -> Search<'a> {
        let mut search = Search {
            table,
            kernel,
            target,
            steps_left: steps,
            steps: 0,
            depths: vec![0],
            placed: Vec::new(),
            finished: class_count(&first_best) == target,
            best: first_best,
        };
        if !search.finished && search.place_rest().is_ok() && search.step(|_| ()).is_ok() {
            search.finished = true;
        }
        search
    }

    /// What those of the steps with these numbers, from 0 on, were that were made. A step that placed a grant left more
    /// of them placed than there were, one that took a grant back left fewer, and the one that closed the search as
    /// many.
    pub fn counts(&self, numbers: Range<u64>) -> Counts {
        let within = |number: u64| number.min(self.steps) as usize;
        let depths = &self.depths[within(numbers.start)..=within(numbers.end)];
        let changes = depths.windows(2).map(|pair| pair[1].cmp(&pair[0]));
        changes.fold(NO_STEPS, |[steps, placed, taken_back, closed], change| match change {
            Ordering::Greater => [steps + 1, placed + 1, taken_back, closed],
            Ordering::Less => [steps + 1, placed, taken_back + 1, closed],
            Ordering::Equal => [steps + 1, placed, taken_back, closed + 1],
        })
    }

    /// Changes what is placed by a step, if one is left.
    fn step(&mut self, change: impl FnOnce(&mut Vec<usize>)) -> Result<(), Stop> {
        self.steps_left = self.steps_left.checked_sub(1).ok_or(Stop)?;
        self.steps += 1;
        change(&mut self.placed);
        self.depths.push(self.placed.len());
        Ok(())
    }

    /// Places the grants from here on in every way that can lead below the best.
    fn place_rest(&mut self) -> Result<(), Stop> {
        let depth = self.placed.len();
        if depth == self.kernel.len() {
            return self.note_best();
        }
        let used = class_count(&self.placed);
        for class in 0..=used {
            self.placed.push(class);
            let worthwhile = class_count(&self.placed) < class_count(&self.best) && self.last_fits();
            self.placed.pop();
            if worthwhile {
                self.step(|placed| placed.push(class))?;
                self.place_rest()?;
                self.step(|placed| placed.truncate(depth))?;
            }
        }
        Ok(())
    }

    /// Whether the last placed grant fits the members of its class.
    fn last_fits(&self) -> bool {
        let last = self.placed.len() - 1;
        (0..last).all(|place| {
            self.placed[place] != self.placed[last] || self.table[self.kernel[place]][self.kernel[last]]
        })
    }

    fn note_best(&mut self) -> Result<(), Stop> {
        self.best = self.placed.clone();
        self.finished = class_count(&self.best) == self.target;
        if self.finished { Err(Stop) } else { Ok(()) }
    }
}
