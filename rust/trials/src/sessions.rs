//! Sessions that are ready for a trial.

use second::implementation::Implementation;
use second::session::Session;

/// A session with this sheet, which must be acceptable. It is not reduced.
pub fn loaded<Kind: Implementation>(sheet: &[u8]) -> Kind {
    let mut session = Kind::fresh();
    session.load(sheet).expect("the sheet is acceptable");
    session
}

/// A session with this sheet, which must be acceptable, reduced.
pub fn reduced<Kind: Implementation>(sheet: &[u8]) -> Kind {
    let mut session: Kind = loaded(sheet);
    session.reduce().expect("a sheet is loaded");
    session
}

/// The book of this sheet, which must be acceptable, before any search.
pub fn first_book(sheet: &[u8]) -> Vec<u8> {
    reduced::<Session>(sheet).reduced().expect("the sheet is reduced").book_bytes()
}
