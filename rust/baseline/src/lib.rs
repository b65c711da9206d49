//! Document 01 in plain Rust, as the requests of document 02 have moved it, made to be fast: what the proved
//! implementation is measured against.
//!
//! Everything is done in place over words of bits, and nothing is allocated after a session was made. A row is
//! the set of the permissions that a user holds, a column that of the users who hold a permission. The
//! answers have the types of the second implementation, so that the two can be compared.

pub mod book;
pub mod causes;
pub mod checker;
pub mod cover;
pub mod kernel;
pub mod machine;
pub mod names;
pub mod newcomer;
pub mod reduction;
pub mod roles;
pub mod session;
pub mod sets;
pub mod sheet;
pub mod witness;
