//! What both programs share: bytes made of the arguments go to standard output; where none can be made, a
//! message goes to standard error, and the status says so.

use std::io::{self, Write};
use std::process::ExitCode;

pub fn run(name: &str, made: impl FnOnce(&[String]) -> Result<Vec<u8>, String>) -> ExitCode {
    let arguments: Vec<String> = std::env::args().skip(1).collect();
    match made(&arguments).and_then(|bytes| print(&bytes).map_err(|error| error.to_string())) {
        Ok(()) => ExitCode::SUCCESS,
        Err(message) => {
            eprintln!("{name}: {message}");
            ExitCode::FAILURE
        }
    }
}

fn print(bytes: &[u8]) -> io::Result<()> {
    let mut stdout = io::stdout();
    stdout.write_all(bytes)?;
    stdout.flush()
}
