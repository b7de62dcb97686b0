//! Schedules written in hex, and the program that turns them into bytes.

mod running;

use second::hex::{bytes, Fault};
use std::path::Path;
use std::process::Output;

fn refused(text: &str) -> (usize, String) {
    let Fault { line, word } = bytes(text.as_bytes()).expect_err(text);
    (line, word)
}

#[test]
fn bytes_with_blanks_between_them() {
    assert_eq!(bytes(b"00 03 01 01 00 00 02 BC").unwrap(), [0, 3, 1, 1, 0, 0, 2, 0xBC]);
    assert_eq!(bytes(b"  ff\tFf  \n\n fF\r\n00").unwrap(), [255, 255, 255, 0]);
    assert_eq!(bytes(b"").unwrap(), []);
}

#[test]
fn every_byte() {
    let (upper, lower): (String, String) =
        (0..=255).map(|byte| (format!("{byte:02X} "), format!("{byte:02x}\n"))).unzip();
    let expected: Vec<u8> = (0..=255).collect();
    assert_eq!(bytes(upper.as_bytes()).unwrap(), expected);
    assert_eq!(bytes(lower.as_bytes()).unwrap(), expected);
}

#[test]
fn comments_end_with_their_line() {
    assert_eq!(bytes(b"# 01 \n 08 # drain # 02\n#\n09#0a").unwrap(), [8, 9]);
    assert_eq!(bytes(b"# \xFF\xFE no text\n08").unwrap(), [8], "a comment is any bytes");
}

#[test]
fn anything_else_is_refused_with_its_line() {
    assert_eq!(refused("0"), (1, "0".to_string()));
    assert_eq!(refused("08\n\n0x08"), (3, "0x08".to_string()));
    assert_eq!(refused("# a comment\n08 008 zz"), (2, "008".to_string()));
    assert_eq!(refused("0G"), (1, "0G".to_string()));
    assert_eq!(refused("+1"), (1, "+1".to_string()));
    assert_eq!(refused("01,02"), (1, "01,02".to_string()));
    assert_eq!(refused("08 // drain"), (1, "//".to_string()));
    assert_eq!(refused("08\r09\n0"), (2, "0".to_string()), "a carriage return ends no line");
    assert!(bytes(b"\xC3\xA9").is_err());
    assert!(bytes(b"08\0").is_err());
}

fn run(arguments: &[&str], input: &[u8]) -> Output {
    running::run(env!("CARGO_BIN_EXE_schedule-bytes"), arguments, input)
}

fn said(output: &Output) -> String {
    assert_eq!(output.status.code(), Some(1));
    assert!(output.stdout.is_empty(), "a refusal writes no byte");
    String::from_utf8(output.stderr.clone()).unwrap()
}

#[test]
fn from_standard_input_or_a_file() {
    let output = run(&[], b"01 02 # two bytes\n");
    assert!(output.status.success() && output.stderr.is_empty());
    assert_eq!(output.stdout, [1, 2]);
    let sample = Path::new(env!("CARGO_MANIFEST_DIR")).join("../samples/write-and-read.hex");
    let output = run(&[sample.to_str().unwrap()], b"");
    assert!(output.status.success());
    assert_eq!(output.stdout, std::fs::read(sample.with_extension("schedule")).unwrap());
}

#[test]
fn what_the_program_says_of_a_refusal() {
    assert_eq!(said(&run(&[], b"08\n8\n")), "schedule-bytes: line 2: not a byte in hex: 8\n");
    assert!(said(&run(&["no such file"], b"")).starts_with("schedule-bytes: no such file: "));
    assert!(said(&run(&["a", "b"], b"")).starts_with("schedule-bytes: use: "));
}
