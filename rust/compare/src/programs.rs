//! The proved programs, as the gate and the shell front leave them in `target/bin` at the top of the repository.

use std::path::Path;

use trials::process::said_and_printed;

/// The program that puts a newcomer in a book.
pub const NEWCOMER: &str = "rolenewcomer";

/// What a program says on standard error and prints on standard output, given this input. It must be there.
pub fn both(program: &str, arguments: &[&str], input: &[u8]) -> (String, String) {
    let path = Path::new(env!("CARGO_MANIFEST_DIR")).join("../../target/bin").join(program);
    assert!(path.is_file(), "{} is missing: run `rt run` in crates/{program}, and copy out/{program}", path.display());
    said_and_printed(&path, arguments, input)
}

/// What a program prints on standard output.
pub fn printed(program: &str, arguments: &[&str], input: &[u8]) -> String {
    both(program, arguments, input).1
}
