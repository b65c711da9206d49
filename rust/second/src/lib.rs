//! A second implementation of document 01, as the requests of document 02 have moved it, written from the papers alone,
//! to compare the proved one with.
//!
//! Everything is kept in sets and vectors: a grant is a pair of a user and a permission, and a set of grants is an
//! ordered set of such pairs. The modules follow the data: a `sheet` is read, its `grants` go through the `reduction`,
//! give a `witness` and a first `cover`, the `machine` improves on that, `roles` and the `book` come out, and the
//! `checker` judges any book, and a `newcomer` gets roles of an accepted one. When two `names` are one is said once, for
//! the sheet, the checker and the newcomer. A `session` holds a sheet between calls, reduced or not yet; a `script` is a
//! list of calls, and a long search is made in `rounds`. What any other `implementation` has to offer to be compared is a
//! trait.

pub mod book;
pub mod checker;
pub mod cover;
pub mod grants;
pub mod implementation;
pub mod limits;
pub mod machine;
pub mod names;
pub mod newcomer;
pub mod reduction;
pub mod refusal;
pub mod roles;
pub mod rounds;
pub mod script;
pub mod session;
pub mod sheet;
pub mod witness;
