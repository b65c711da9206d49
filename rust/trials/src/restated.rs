//! The rules of document 01, as the requests of document 02 have moved them, said a second time in another way, to
//! compare the library with.

pub mod causes;
pub mod form;
pub mod history;
pub mod newcomer;
pub mod recursion;
pub mod spelling;
pub mod tables;
pub mod whole;
