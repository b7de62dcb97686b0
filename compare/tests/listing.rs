//! Listings: each program prints what is stored, and all print the same on fresh schedules.

use compare::both::drains;
use compare::folders::files;
use compare::listing::{list_into, ENOUGH};
use compare::seeds::over_seeds;
use second::generate_schedules::{schedule, style};
use second::hex;
use std::collections::BTreeSet;
use std::fs;
use std::path::{Path, PathBuf};
use std::time::{SystemTime, UNIX_EPOCH};

type Program = fn(&[u8]) -> Vec<u8>;

const PROGRAMS: [(&str, Program); 2] = [
    ("the second program", second::listing::listing),
    ("the proved call", compare::listing::listing),
];

/// Each program prints `expected`; if not, the first line that differs is shown.
fn all_print(schedule: &[u8], expected: &[u8], what: &str) {
    for (name, program) in PROGRAMS {
        let found = program(schedule);
        if found != expected {
            let lines =
                |text: &[u8]| String::from_utf8_lossy(text).lines().map(String::from).collect();
            let (found, expected): (Vec<String>, Vec<String>) = (lines(&found), lines(expected));
            let same = found.iter().zip(&expected).take_while(|(one, other)| one == other).count();
            panic!(
                "{what}: {name} prints {:?} as line {same} after the first, and not {:?}",
                found.get(same),
                expected.get(same)
            );
        }
    }
}

/// The files of a folder that end so, in order, without that ending.
fn names(folder: &str, ending: &str) -> Vec<PathBuf> {
    files(folder, ending).iter().map(|file| file.with_extension("")).collect()
}

fn bytes_of(file: &Path) -> Vec<u8> {
    let text = fs::read(file.with_extension("hex")).unwrap();
    hex::bytes(&text).unwrap_or_else(|fault| panic!("{}: {fault}", file.display()))
}

/// Each stored schedule with its listing.
fn stored() -> Vec<(PathBuf, Vec<u8>, Vec<u8>)> {
    let mut all = Vec::new();
    for folder in ["compare/listings", "samples"] {
        let schedules = names(folder, "hex");
        assert_eq!(schedules, names(folder, "listing"), "pairs in {folder}");
        for name in schedules {
            let listing = fs::read(name.with_extension("listing")).unwrap();
            all.push((name.clone(), bytes_of(&name), listing));
        }
    }
    all
}

#[test]
fn stored_listings() {
    let stored = stored();
    assert!(stored.len() >= 40, "only {} listings are stored", stored.len());
    for (name, schedule, listing) in stored {
        all_print(&schedule, &listing, &name.display().to_string());
    }
}

/// Every refusal that a schedule can meet from fresh, and every n.
#[test]
fn stored_listings_meet_every_refusal_and_every_n() {
    let (mut answers, mut sizes) = (BTreeSet::new(), BTreeSet::new());
    for (_, schedule, listing) in stored() {
        let text = String::from_utf8(listing).unwrap();
        let told: Vec<u8> = text
            .lines()
            .skip(1)
            .map(|line| line.split(' ').nth(4).unwrap().parse().unwrap())
            .collect();
        if told.first() == Some(&0) {
            sizes.insert(schedule[1]);
        }
        answers.extend(told);
    }
    assert_eq!(answers.into_iter().collect::<Vec<_>>(), [0, 1, 4, 5, 7, 8, 9, 10, 15, 16, 17]);
    assert_eq!(sizes.into_iter().collect::<Vec<_>>(), [1, 2, 3, 4, 5, 6, 7]);
}

#[test]
fn samples_are_the_bytes_of_their_text() {
    let samples = names("samples", "schedule");
    assert_eq!(samples, names("samples", "hex"));
    for sample in samples {
        let bytes = fs::read(sample.with_extension("schedule")).unwrap();
        assert_eq!(bytes, bytes_of(&sample), "{}", sample.display());
    }
}

/// "at most 65,536 bytes; a longer one gives the single line `too long`"
#[test]
fn longest_and_too_long() {
    let mut listing = b"step kind a b answer result\n1 0 - - 0 -\n".to_vec();
    for step in 2..=65_529 {
        listing.extend(format!("{step} 8 - - 0 d0\n").bytes());
    }
    all_print(&drains([3, 1, 1], 65_536), &listing, "65,536 bytes");
    all_print(&drains([3, 1, 1], 65_537), b"too long\n", "65,537 bytes");
    all_print(&[255; 65_537], b"too long\n", "65,537 bytes of no kind");
    all_print(&[0; 1_000_000], b"too long\n", "a million bytes");
}

/// An area that holds every listing is taken; one byte less is refused, whatever the schedule, and left
/// as it was.
#[test]
fn an_area_too_short_is_refused() {
    for schedule in [&[][..], &[9], &[0, 1, 0, 1, 0, 0, 0, 5, 2, 1], &[0; 65_537]] {
        let expected = second::listing::listing(schedule);
        let mut area = vec![0xEE; ENOUGH];
        assert_eq!(list_into(schedule, &mut area), expected.len());
        assert!(area.starts_with(&expected));
        for length in [0, 1, 28, ENOUGH - 1] {
            let mut area = vec![0xEE; length];
            assert_eq!(list_into(schedule, &mut area), 0);
            assert!(area.iter().all(|&byte| byte == 0xEE), "an area of {length} was touched");
        }
    }
}

/// Two thousand, from the clock on; the first seed is told, and SEED sets it.
#[test]
fn fresh_schedules() {
    let clock = SystemTime::now().duration_since(UNIX_EPOCH).expect("a clock past 1970");
    let first: u64 = match std::env::var("SEED") {
        Ok(seed) => seed.parse().expect("SEED is a number"),
        Err(_) => clock.as_secs() * 10_000,
    };
    println!("SEED={first}");
    over_seeds(first..first + 2000, |seed, _| {
        let schedule = schedule(seed);
        let expected = second::listing::listing(&schedule);
        all_print(&schedule, &expected, &format!("seed {seed}, {:?}", style(seed)));
    });
}
