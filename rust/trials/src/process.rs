//! Programs as they are called.

use std::io::Write;
use std::path::Path;
use std::process::{Command, Output, Stdio};

/// What a program gives back on this input. It must start and end.
pub fn run(program: &Path, arguments: &[&str], input: &[u8]) -> Output {
    let mut child = Command::new(program)
        .args(arguments)
        .stdin(Stdio::piped())
        .stdout(Stdio::piped())
        .stderr(Stdio::piped())
        .spawn()
        .unwrap_or_else(|error| panic!("{} does not start: {error}", program.display()));
    let mut stdin = child.stdin.take().expect("standard input is piped");
    let input = input.to_vec();
    // A program may end before it has read everything.
    let feeder = std::thread::spawn(move || stdin.write_all(&input).ok());
    let output = child.wait_with_output().expect("the program ends");
    feeder.join().expect("the input is given");
    output
}

/// What a program says on standard error and prints on standard output, given this input. It must end well.
pub fn said_and_printed(program: &Path, arguments: &[&str], input: &[u8]) -> (String, String) {
    let output = run(program, arguments, input);
    assert!(output.status.success(), "{}: {output:?}", program.display());
    let text = |bytes| String::from_utf8(bytes).expect("the output is plain text");
    (text(output.stderr), text(output.stdout))
}
