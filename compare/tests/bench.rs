//! The program `bench` itself, from standard input to standard output.

use compare::both::drains;
use compare::folders::{below_root, files};
use second::listing::listing;
use std::fs::{self, File};
use std::io::Write;
use std::process::{Command, Output, Stdio};
use std::thread;

/// The program as `rt` builds it.
fn bench() -> Command {
    let program = below_root("crates/bench/out/bench");
    assert!(program.exists(), "no {}: run `rt run` in crates/bench first", program.display());
    Command::new(program)
}

/// Fed through a pipe, a piece at a time. A schedule that is too long is not taken to its end.
fn fed(schedule: &[u8], piece: usize) -> Output {
    let mut child = bench()
        .stdin(Stdio::piped())
        .stdout(Stdio::piped())
        .stderr(Stdio::piped())
        .spawn()
        .unwrap();
    let mut pipe = child.stdin.take().unwrap();
    let schedule = schedule.to_vec();
    let feeding =
        thread::spawn(move || schedule.chunks(piece).all(|piece| pipe.write_all(piece).is_ok()));
    let output = child.wait_with_output().unwrap();
    feeding.join().unwrap();
    output
}

fn prints(output: Output, expected: &[u8], what: &str) {
    assert!(output.status.success() && output.stderr.is_empty(), "{what}: {output:?}");
    assert!(output.stdout == expected, "{what}: another listing");
}

#[test]
fn samples_from_a_file() {
    for sample in files("samples", "schedule") {
        let output = bench().stdin(File::open(&sample).unwrap()).output().unwrap();
        let expected = fs::read(sample.with_extension("listing")).unwrap();
        prints(output, &expected, &sample.display().to_string());
    }
}

/// Some of each style of generated schedules: runs, used up, damaged, cut, longest, too long.
#[test]
fn schedules_through_a_pipe() {
    for seed in 0..32 {
        let schedule = second::generate_schedules::schedule(seed);
        let output = fed(&schedule, 1 + seed as usize * 700);
        prints(output, &listing(&schedule), &format!("seed {seed}"));
    }
}

/// The last piece is one byte, before and behind the longest that is taken.
#[test]
fn longest_and_too_long() {
    for length in [65_535, 65_536, 65_537, 1_000_000] {
        let schedule = drains([7, 3, 1], length);
        prints(fed(&schedule, 65_536), &listing(&schedule), &format!("{length} bytes"));
    }
}

#[test]
fn no_input() {
    prints(fed(&[], 1), b"step kind a b answer result\n", "an empty pipe");
    let output = bench().stdin(Stdio::null()).output().unwrap();
    prints(output, b"step kind a b answer result\n", "an empty file");
}

/// What the program says on standard error when a shell starts it with these redirections. It prints
/// nothing else.
fn said(how: &str) -> String {
    let bench = bench();
    let script = format!("exec \"$0\" \"$@\" {how}");
    let mut shell = Command::new("sh");
    shell.args(["-c", &script]).arg(bench.get_program()).args(bench.get_args());
    shell.stdin(File::open(below_root("samples/write-and-read.schedule")).unwrap());
    let output = shell.output().unwrap();
    assert!(output.stdout.is_empty(), "{how}: {output:?}");
    String::from_utf8_lossy(&output.stderr).into_owned()
}

/// What cannot be read is told apart from the end of the input.
#[test]
fn unreadable_input_is_said() {
    for how in ["<&-", "</"] {
        assert_eq!(said(how), "bench: standard input cannot be read\n", "{how}");
    }
}

#[test]
fn a_failed_write_is_said() {
    for how in [">&-", ">/dev/full"] {
        assert_eq!(said(how), "bench: standard output cannot be written\n", "{how}");
    }
}
