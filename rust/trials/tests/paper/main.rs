//! The library against document 01, as the requests of document 02 have moved it: its examples and edges, its settled
//! readings, and its rules on many sheets, books and sequences.

mod books;
mod causes;
mod checker;
mod damaged_books;
mod edges;
mod form;
mod generators;
mod kernels;
mod limits;
mod machine;
mod newcomers;
mod one_change;
mod progress;
mod readings;
mod reducing;
mod reduction;
mod sequences;
mod slips;
mod smallest;
mod spelling;
mod steps;
mod support;
