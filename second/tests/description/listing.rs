//! The description, "The bench listing", each listing worked out by hand.

use crate::common::{drains, listing_text};
use second::listing::listing;

const FIRST: &str = "step kind a b answer result\n";
const SET_UP: [u8; 8] = [0, 3, 1, 1, 0, 0, 2, 0xBC];

fn shows(schedule: &[u8], lines: &[&str]) {
    let expected: String = lines.iter().map(|line| format!("{line}\n")).collect();
    assert_eq!(listing_text(schedule), format!("{FIRST}{expected}"), "of {schedule:?}");
}

/// After a set-up of three panels, t=1, writer 1, initial value 700, which is line 1.
fn shows_after_set_up(records: &[u8], lines: &[&str]) {
    let schedule = [&SET_UP, records].concat();
    shows(&schedule, &[&["1 0 - - 0 -"], lines].concat());
}

// "Input, in hex: `00 03 01 01 00 00 02 BC`, `01 00 00 02 8A`, `04 01 02`, `04 02 01`, `02 03`, `08`.
// Output:"
#[test]
fn the_sample() {
    let records = [1, 0, 0, 2, 0x8A, 4, 1, 2, 4, 2, 1, 2, 3, 8];
    let expected = "step kind a b answer result
1 0 - - 0 -
2 1 - - 0 -
3 4 1 2 0 -
4 4 2 1 0 w1
5 2 3 - 0 -
6 4 1 3 0 -
7 4 2 3 0 -
8 4 3 1 0 -
9 5 3 1 0 -
10 6 1 3 0 r650
11 4 3 2 0 -
12 5 3 2 0 -
13 6 2 3 0 -
14 8 - - 0 d8
";
    assert_eq!(listing_text(&[&SET_UP[..], &records].concat()), expected);
}

// "an empty input gives the first line alone"
#[test]
fn empty_input() {
    shows(&[], &[]);
}

// "at most 65,536 bytes; a longer one gives the single line `too long`"
#[test]
fn too_long() {
    assert_eq!(listing(&drains(SET_UP, 65_537)), b"too long\n");
    assert_eq!(listing(&vec![255; 65_537]), b"too long\n");
    assert_eq!(listing(&vec![0; 200_000]), b"too long\n");
    let longest = listing_text(&drains(SET_UP, 65_536));
    assert_eq!(longest.lines().count(), 1 + 1 + 65_528);
    assert_eq!(longest.lines().last(), Some("65529 8 - - 0 d0"));
}

// "Answers 1, 15 and 16 end the listing": 1.
#[test]
fn refused_set_up_ends() {
    for sizes in [[0, 0, 1], [8, 0, 1], [6, 3, 1], [3, 128, 1], [3, 255, 1], [3, 1, 0], [3, 1, 4]] {
        let schedule = [&[0], &sizes[..], &[0, 0, 0, 0, 8, 8]].concat();
        shows(&schedule, &["1 0 - - 1 -"]);
    }
}

// "Answers 1, 15 and 16 end the listing, ...; 15 and 16 show `-` for panels."
#[test]
fn unreadable_records_end() {
    for kind in 9..=255u8 {
        shows_after_set_up(&[8, kind, 8, 8], &["2 8 - - 0 d0", &format!("3 {kind} - - 15 -")]);
    }
    shows_after_set_up(&[0, 3, 1, 1, 0, 0, 0], &["2 0 - - 16 -"]);
    shows_after_set_up(&[1, 0, 0, 0], &["2 1 - - 16 -"]);
    shows_after_set_up(&[2], &["2 2 - - 16 -"]);
    for kind in 3..=6 {
        shows_after_set_up(&[kind], &[&format!("2 {kind} - - 16 -")]);
        shows_after_set_up(&[kind, 1], &[&format!("2 {kind} - - 16 -")]);
    }
    shows_after_set_up(&[7], &["2 7 - - 16 -"]);
}

// "and so does 17 on the first record". 17 shows its record's panels.
#[test]
fn first_record_not_a_set_up() {
    shows(&[1, 0, 0, 0, 5, 8], &["1 1 - - 17 -"]);
    shows(&[2, 9, 8], &["1 2 9 - 17 -"]);
    shows(&[4, 1, 2, 8], &["1 4 1 2 17 -"]);
    shows(&[6, 0, 255], &["1 6 0 255 17 -"]);
    shows(&[7, 3], &["1 7 3 - 17 -"]);
    shows(&[8, 8], &["1 8 - - 17 -"]);
}

// "a schedule record is first read (15, 16), then placed (17)"
#[test]
fn read_before_placed() {
    shows(&[9], &["1 9 - - 15 -"]);
    shows(&[255, 0], &["1 255 - - 15 -"]);
    shows(&[4, 1], &["1 4 - - 16 -"]);
    shows(&[0, 3, 1], &["1 0 - - 16 -"]);
}

// 17: "first record isn't a set-up, or a later one is". A later one does not end the listing, whatever
// its sizes, and changes nothing.
#[test]
fn later_set_up() {
    let records = [0, 9, 9, 9, 0, 0, 0, 1, 0, 1, 0, 1, 0, 0, 0, 1, 2, 3, 8];
    shows_after_set_up(
        &records,
        &[
            "2 0 - - 17 -",
            "3 0 - - 17 -",
            "4 2 3 - 0 -",
            "5 5 3 1 0 -",
            "6 6 1 3 0 r700",
            "7 5 3 2 0 -",
            "8 6 2 3 0 -",
            "9 8 - - 0 d4",
        ],
    );
}

// "the one or two panel numbers of kinds 2 to 7 (`-` where there is none), 0 or the refusal number"
#[test]
fn panel_numbers_as_given() {
    let records = [2, 0, 2, 4, 2, 255, 7, 8, 3, 0, 1, 4, 1, 1, 5, 255, 255, 6, 3, 9, 3, 1, 2];
    shows_after_set_up(
        &records,
        &[
            "2 2 0 - 4 -",
            "3 2 4 - 4 -",
            "4 2 255 - 4 -",
            "5 7 8 - 4 -",
            "6 3 0 1 4 -",
            "7 4 1 1 4 -",
            "8 5 255 255 4 -",
            "9 6 3 9 4 -",
            "10 3 1 2 9 -",
        ],
    );
}

// "`w` with a finished write's number, `r` with a value read"
#[test]
fn results_at_a_start() {
    let schedule = [
        &[0, 1, 0, 1, 0, 0, 0, 0][..],
        &[2, 1],
        &[1, 255, 255, 255, 255],
        &[2, 1],
        &[1, 0, 0, 0, 9, 2, 1, 8],
    ];
    let lines = [
        "1 0 - - 0 -",
        "2 2 1 - 0 r0",
        "3 1 - - 0 w1",
        "4 2 1 - 0 r4294967295",
        "5 1 - - 0 w2",
        "6 2 1 - 0 r9",
        "7 8 - - 0 d0",
    ];
    shows(&schedule.concat(), &lines);
}

// "A drain prints a line for each delivery, then its own." Messages to a down panel stay in flight.
// "Step numbers count the lines after the first."
#[test]
fn drain_with_a_panel_down() {
    let records = [1, 0, 0, 0, 7, 7, 3, 8, 8, 4, 1, 3, 7, 3, 7, 2, 2, 3];
    shows_after_set_up(
        &records,
        &[
            "2 1 - - 0 -",
            "3 7 3 - 0 -",
            "4 4 1 2 0 -",
            "5 4 2 1 0 w1",
            "6 8 - - 0 d2",
            "7 8 - - 0 d0",
            "8 4 1 3 5 -",
            "9 7 3 - 5 -",
            "10 7 2 - 10 -",
            "11 2 3 - 5 -",
        ],
    );
}

// "Messages from a down panel can still be delivered."
#[test]
fn down_writer() {
    let records = [1, 0, 0, 0, 7, 7, 1, 4, 1, 2, 1, 0, 0, 0, 8, 4, 2, 1, 4, 2, 3];
    shows_after_set_up(
        &records,
        &["2 1 - - 0 -", "3 7 1 - 0 -", "4 4 1 2 0 -", "5 1 - - 5 -", "6 4 2 1 5 -", "7 4 2 3 0 -"],
    );
}

// 7, and "the listing goes on" after every answer but 1, 15, 16 and the first 17.
#[test]
fn unfinished_operations() {
    let records = [1, 0, 0, 0, 7, 1, 0, 0, 0, 8, 2, 1, 2, 2, 2, 2];
    shows_after_set_up(
        &records,
        &["2 1 - - 0 -", "3 1 - - 7 -", "4 2 1 - 7 -", "5 2 2 - 0 -", "6 2 2 - 7 -"],
    );
}

// "The run ends when these are used up": starts are then refused 8 and the listing goes on.
#[test]
fn used_up() {
    let mut schedule = vec![0, 1, 0, 1, 0, 0, 0, 5];
    schedule.extend([1, 0, 0, 0, 6].repeat(201));
    schedule.extend([2, 1].repeat(101));
    schedule.push(8);
    let found = listing_text(&schedule);
    let lines: Vec<&str> = found.lines().skip(1).collect();
    assert_eq!(lines.len(), 1 + 201 + 101 + 1);
    assert_eq!(lines[200], "201 1 - - 0 w200");
    assert_eq!(lines[201], "202 1 - - 8 -");
    assert_eq!(lines[301], "302 2 1 - 0 r6");
    assert_eq!(lines[302], "303 2 1 - 8 -");
    assert_eq!(lines[303], "304 8 - - 0 d0");
}

// "Lines end in LF; fields stand one space apart, numbers in decimal."
#[test]
fn every_line_has_six_fields() {
    for seed in 0..200 {
        let schedule = second::generate_schedules::schedule(seed);
        let text = listing_text(&schedule);
        assert!(text.ends_with('\n') && !text.contains(['\r', '\t']));
        if text == "too long\n" {
            continue;
        }
        assert!(text.starts_with(FIRST));
        for (number, line) in text.lines().enumerate().skip(1) {
            let fields: Vec<&str> = line.split(' ').collect();
            assert_eq!(fields.len(), 6, "{line}");
            assert_eq!(fields[0], number.to_string());
        }
    }
}
