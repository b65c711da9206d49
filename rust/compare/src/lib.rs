//! The proved implementation as Rust reaches it: its `library`, linked into the process, its `programs`, and the shell
//! `front` before them.

pub mod front;
pub mod library;
pub mod programs;
