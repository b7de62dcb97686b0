//! Running a program of this package.

use std::io::Write;
use std::process::{Command, Output, Stdio};

/// The program with these arguments, given this on standard input.
pub fn run(program: &str, arguments: &[&str], input: &[u8]) -> Output {
    let mut child = Command::new(program)
        .args(arguments)
        .stdin(Stdio::piped())
        .stdout(Stdio::piped())
        .stderr(Stdio::piped())
        .spawn()
        .unwrap();
    // A program that wants no input may be gone before it is written.
    let _written = child.stdin.take().unwrap().write_all(input);
    child.wait_with_output().unwrap()
}
