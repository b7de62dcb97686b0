//! The program itself, from standard input to standard output.

use crate::common::drains;
use crate::running;
use second::generate_schedules;
use second::listing::listing;
use std::process::Output;

fn run(arguments: &[&str], input: &[u8]) -> Output {
    running::run(env!("CARGO_BIN_EXE_second"), arguments, input)
}

// "takes a schedule on standard input"
#[test]
fn listing_on_standard_output() {
    let sample = [0, 3, 1, 1, 0, 0, 2, 0xBC, 1, 0, 0, 2, 0x8A, 4, 1, 2, 4, 2, 1, 2, 3, 8];
    let output = run(&[], &sample);
    assert!(output.status.success() && output.stderr.is_empty());
    let text = String::from_utf8(output.stdout).unwrap();
    assert_eq!(text.lines().count(), 15);
    assert_eq!(text.lines().nth(10), Some("10 6 1 3 0 r650"));
    assert_eq!(run(&[], &[]).stdout, b"step kind a b answer result\n");
}

// "at most 65,536 bytes; a longer one gives the single line `too long`"
#[test]
fn long_input() {
    let schedule = |length| drains([0, 7, 3, 1, 0, 0, 0, 0], length);
    assert_eq!(run(&[], &schedule(65_536)).stdout, listing(&schedule(65_536)));
    assert_eq!(run(&[], &schedule(65_537)).stdout, b"too long\n");
    assert_eq!(run(&[], &schedule(165_537)).stdout, b"too long\n");
}

#[test]
fn schedule_of_a_seed() {
    for seed in [0, 7, 13] {
        let output = run(&["schedule", &seed.to_string()], &[]);
        assert!(output.status.success());
        assert_eq!(output.stdout, generate_schedules::schedule(seed));
    }
}

#[test]
fn wrong_use() {
    let cases: [&[&str]; 5] = [
        &["schedule"],
        &["schedule", "x"],
        &["schedule", "-1"],
        &["listing"],
        &["schedule", "1", "2"],
    ];
    for arguments in cases {
        let output = run(arguments, &[]);
        assert!(!output.status.success() && output.stdout.is_empty());
        assert!(output.stderr.starts_with(b"second: "), "{arguments:?}");
    }
}
