//! The calls of document 01, as the requests of document 02 have moved them, as any implementation answers them, so
//! that implementations can be compared.

use crate::checker::{self, CheckAnswer};
use crate::newcomer;
use crate::refusal::Refusal;
use crate::session::{LoadAnswer, ReduceAnswer, SearchAnswer, Session};

/// A session of an implementation, and its calls that need none.
pub trait Implementation {
    fn fresh() -> Self;

    /// Puts a sheet, not reduced, in place of the former one.
    fn load(&mut self, sheet: &[u8]) -> Result<LoadAnswer, Refusal>;

    /// Reduces the sheet and makes the first cover; does nothing to a reduced one.
    fn reduce(&mut self) -> Result<ReduceAnswer, Refusal>;

    /// Moves the search forward by at most this many steps.
    fn search(&mut self, budget: u32) -> Result<SearchAnswer, Refusal>;

    /// Writes the book to the front of the buffer and gives its byte count.
    fn write(&mut self, buffer: &mut [u8]) -> Result<usize, Refusal>;

    /// Judges a book against a sheet.
    fn check(sheet: &[u8], book: &[u8]) -> Result<CheckAnswer, Refusal>;

    /// Writes the book of the sheet with this user line put behind it to the front of the buffer, made from a book of the
    /// sheet, and gives its byte count.
    fn newcomer(sheet: &[u8], book: &[u8], line: &[u8], buffer: &mut [u8]) -> Result<usize, Refusal>;
}

impl Implementation for Session {
    fn fresh() -> Session {
        Session::fresh()
    }

    fn load(&mut self, sheet: &[u8]) -> Result<LoadAnswer, Refusal> {
        Session::load(self, sheet)
    }

    fn reduce(&mut self) -> Result<ReduceAnswer, Refusal> {
        Session::reduce(self)
    }

    fn search(&mut self, budget: u32) -> Result<SearchAnswer, Refusal> {
        Session::search(self, budget)
    }

    fn write(&mut self, buffer: &mut [u8]) -> Result<usize, Refusal> {
        Session::write(self, buffer)
    }

    fn check(sheet: &[u8], book: &[u8]) -> Result<CheckAnswer, Refusal> {
        checker::check(sheet, book)
    }

    fn newcomer(sheet: &[u8], book: &[u8], line: &[u8], buffer: &mut [u8]) -> Result<usize, Refusal> {
        newcomer::newcomer(sheet, book, line, buffer)
    }
}
