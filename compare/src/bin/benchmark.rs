//! Times of the proved listing and of the second program, on the same schedules, in one run.
//!
//! Each schedule is run by both first, and the listings have to be equal. Then both run it in turn, and
//! the least time of each counts. The proved call writes into one area, allocated before the first run
//! and not cleared between runs; the second program allocates its listing.
//!
//! Both change one network in place. They do not do the same work all the same: each event of the proved
//! one first tests that the panel which acts is in form, and hands the panel's tables on by value; the
//! second program's listing tests no form and copies nothing.

use compare::listing::{list_into, ENOUGH};
use second::listing::{listing, LONGEST};
use second::network::{Delivery, Network};
use second::schedule::{Reader, Record};
use second::{READS, WRITES};
use std::hint::black_box;
use std::time::{Duration, Instant};

type Make = fn(u8) -> Vec<u8>;

const SCHEDULES: [(&str, Make); 5] = [
    ("all writes and reads, delivered by drains", |n| used_up(n, true)),
    ("all writes and reads, a record for each delivery", |n| used_up(n, false)),
    ("65,536 bytes of drains, with nothing to deliver", |n| filled(n, &[Record::Drain])),
    ("65,536 bytes of reads, nearly all refused", |n| filled(n, &[Record::Read { panel: 1 }])),
    ("65,536 bytes of power losses, nearly all refused", |n| filled(n, &losses(n))),
];

const SIZES: [u8; 4] = [1, 3, 5, 7];

fn main() {
    let mut area = vec![0; ENOUGH];
    println!(
        "Times in ms, the least of several runs. `us/line` is the proved call's time for a line."
    );
    for (name, make) in SCHEDULES {
        println!("\n{name}");
        let rows = SIZES.map(|n| (format!("n = {n}"), make(n)));
        table(&rows, &mut area);
    }
    for (name, make) in SCHEDULES {
        println!("\n{name}: n = 7, the first part of it");
        let whole = make(7);
        let rows = [8, 4, 2, 1].map(|part| (format!("1/{part}"), front(&whole, part)));
        table(&rows, &mut area);
    }
}

fn table(rows: &[(String, Vec<u8>)], area: &mut [u8]) {
    println!(
        "{:>6} {:>7} {:>7} {:>10} {:>10} {:>7} {:>8}",
        "", "bytes", "lines", "proved", "second", "ratio", "us/line"
    );
    for (label, schedule) in rows {
        let lines = alike(schedule, area);
        let [proved, second] = times(schedule, area).map(|time| time.as_secs_f64() * 1e3);
        println!(
            "{label:>6} {:>7} {lines:>7} {proved:>10.3} {second:>10.3} {:>7.1} {:>8.3}",
            schedule.len(),
            proved / second,
            proved * 1e3 / lines as f64
        );
    }
}

/// How many lines the listing has, once both gave the same.
fn alike(schedule: &[u8], area: &mut [u8]) -> usize {
    let length = list_into(schedule, area);
    let second = listing(schedule);
    assert!(area[..length] == second, "the listings differ");
    second.iter().filter(|&&byte| byte == b'\n').count()
}

/// The least time of the proved call and of the second program, of at least five runs each.
fn times(schedule: &[u8], area: &mut [u8]) -> [Duration; 2] {
    let mut least = [Duration::MAX; 2];
    let (start, mut turns) = (Instant::now(), 0);
    while turns < 5 || start.elapsed() < Duration::from_millis(500) {
        let begun = Instant::now();
        black_box(list_into(black_box(schedule), area));
        least[0] = least[0].min(begun.elapsed());
        let begun = Instant::now();
        black_box(listing(black_box(schedule)));
        least[1] = least[1].min(begun.elapsed());
        turns += 1;
    }
    least
}

/// As many panels down as n allows, panel 1 writes.
fn set_up(n: u8) -> Record {
    Record::SetUp { n, t: (n - 1) / 2, writer: 1, initial: 700 }
}

/// 200 writes, and a read by every panel after each of the first 100, every one delivered to its end.
fn used_up(n: u8, by_drains: bool) -> Vec<u8> {
    let mut run = Run::new(n, by_drains);
    for round in 0..WRITES {
        run.starts(&[Record::Write { value: round as u32 }]);
        if round < READS {
            let reads: Vec<Record> = (1..=n).map(|panel| Record::Read { panel }).collect();
            run.starts(&reads);
        }
    }
    run.schedule
}

struct Run {
    schedule: Vec<u8>,
    network: Network,
    by_drains: bool,
}

impl Run {
    fn new(n: u8, by_drains: bool) -> Run {
        let mut schedule = Vec::new();
        set_up(n).push(&mut schedule);
        let network = Network::set_up(n, (n - 1) / 2, 1, 700).expect("sizes in range");
        Run { schedule, network, by_drains }
    }

    fn starts(&mut self, records: &[Record]) {
        for record in records {
            record.push(&mut self.schedule);
            let started = match *record {
                Record::Write { value } => self.network.write(value),
                Record::Read { panel } => self.network.read(panel),
                _ => panic!("no start: {record:?}"),
            };
            started.expect("everybody is idle");
        }
        if self.by_drains {
            Record::Drain.push(&mut self.schedule);
        }
        while let Some(message) = self.network.next_delivery().expect("a network in form") {
            let Delivery { kind, sender, receiver } = message;
            self.network.deliver(kind, sender, receiver).expect("it is in flight");
            if !self.by_drains {
                Record::Deliver(message).push(&mut self.schedule);
            }
        }
    }
}

fn losses(n: u8) -> Vec<Record> {
    (1..=n).map(|panel| Record::PowerLoss { panel }).collect()
}

/// A set-up, and these records over and over up to the longest schedule taken.
fn filled(n: u8, records: &[Record]) -> Vec<u8> {
    let (mut schedule, mut round) = (Vec::new(), Vec::new());
    set_up(n).push(&mut schedule);
    records.iter().for_each(|record| record.push(&mut round));
    while schedule.len() + round.len() <= LONGEST {
        schedule.extend(&round);
    }
    schedule
}

/// The whole records of the first part, of so many equal ones.
fn front(schedule: &[u8], parts: usize) -> Vec<u8> {
    let mut reader = Reader::new(schedule);
    while reader.place < schedule.len() / parts {
        reader.next_record().expect("whole records");
    }
    schedule[..reader.place].to_vec()
}
