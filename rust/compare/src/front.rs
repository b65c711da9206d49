//! The shell front for people, `porvuund` at the top of the repository.

use std::path::Path;
use std::sync::Mutex;

use trials::process::run;

/// What the front says and prints, and its exit status.
#[derive(Clone, Debug, PartialEq, Eq)]
pub struct Said {
    pub status: Option<i32>,
    pub printed: String,
    /// On standard error.
    pub said: String,
}

/// Calls the front with these arguments and this input. It builds the programs where they are older than their sources,
/// so one call is made at a time.
pub fn porvuund(arguments: &[&str], input: &[u8]) -> Said {
    static ONE_AT_A_TIME: Mutex<()> = Mutex::new(());
    let _turn = ONE_AT_A_TIME.lock().unwrap_or_else(|poisoned| poisoned.into_inner());
    let path = Path::new(env!("CARGO_MANIFEST_DIR")).join("../../porvuund");
    let output = run(&path, arguments, input);
    let text = |bytes| String::from_utf8(bytes).expect("the output is plain text");
    Said { status: output.status.code(), printed: text(output.stdout), said: text(output.stderr) }
}
