//! Trials of an implementation of document 01, as the requests of document 02 have moved it: what to feed it, and what
//! it must answer.
//!
//! Generators, all from seeds: `families` of sheets, sheets at the limits (`extremes`), sheets with a kernel of a
//! given size (`kernels`), sheets with something to search (`searches`), damaged sheets and books (`damage`), sheets
//! and books with names and words in another `spelling`, `newcomers` with books for them to join, two sheets with
//! `one_change` between them, and sequences of `calls`. Ready to be tried: `sessions` with a sheet. Answers from
//! elsewhere: `brute` finds the smallest number of roles from the two matrices alone, `restated` says the rules of
//! document 01 a second time, in another way, `steps` has the laws about the counts of a search, and `rounds` what
//! can be known of the lines about a long one. Any other implementation is held to the second one by `agreement`.

pub mod agreement;
pub mod book_draft;
pub mod brute;
pub mod calls;
pub mod cases;
pub mod damage;
pub mod draft;
pub mod extremes;
pub mod families;
pub mod kernels;
pub mod newcomers;
pub mod one_change;
pub mod paper;
pub mod process;
pub mod random;
pub mod restated;
pub mod rounds;
pub mod searches;
pub mod sessions;
pub mod spelling;
pub mod steps;
pub mod tally;
