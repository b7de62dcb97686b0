//! `second < schedule` prints the listing; `second schedule SEED` writes the schedule of that seed.

use second::listing::{listing, LONGEST};
use second::{generate_schedules, program};
use std::io::{self, Read};
use std::process::ExitCode;

const USE: &str = "use: second < schedule, or: second schedule SEED";

fn main() -> ExitCode {
    program::run("second", output)
}

fn output(arguments: &[String]) -> Result<Vec<u8>, String> {
    match arguments {
        [] => Ok(listing(&standard_input().map_err(|error| error.to_string())?)),
        [word, seed] if word == "schedule" => {
            let seed = seed.parse().map_err(|_| format!("not a seed: {seed}"))?;
            Ok(generate_schedules::schedule(seed))
        }
        _ => Err(USE.to_string()),
    }
}

/// One byte more than is taken is enough to know that a schedule is too long.
fn standard_input() -> io::Result<Vec<u8>> {
    let mut schedule = Vec::new();
    io::stdin().take(LONGEST as u64 + 1).read_to_end(&mut schedule)?;
    Ok(schedule)
}
