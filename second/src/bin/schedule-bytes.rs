//! `schedule-bytes FILE`, or `schedule-bytes < FILE`: the bytes of a schedule that is written in hex.

use second::{hex, program};
use std::io::{self, Read};
use std::process::ExitCode;

fn main() -> ExitCode {
    program::run("schedule-bytes", output)
}

fn output(arguments: &[String]) -> Result<Vec<u8>, String> {
    let text = match arguments {
        [] => standard_input().map_err(|error| error.to_string())?,
        [file] => std::fs::read(file).map_err(|error| format!("{file}: {error}"))?,
        _ => return Err("use: schedule-bytes FILE, or: schedule-bytes < FILE".to_string()),
    };
    hex::bytes(&text).map_err(|fault| fault.to_string())
}

fn standard_input() -> io::Result<Vec<u8>> {
    let mut text = Vec::new();
    io::stdin().read_to_end(&mut text)?;
    Ok(text)
}
