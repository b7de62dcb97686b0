//! Schedules by seed, for comparing programs: the same seed gives the same bytes everywhere.

pub(crate) mod driver;
mod refused;

use crate::listing::LONGEST;
use crate::random::Random;
use crate::schedule::{Record, LENGTHS};
use driver::Driver;

/// What the schedule of a seed is made for.
#[derive(Clone, Copy, PartialEq, Eq, Hash, Debug)]
pub enum Style {
    /// A run from fresh with some refused steps.
    Run,
    /// 200 writes, 100 reads a panel, and the next of each tried.
    UsedUp,
    /// One event that sends as many messages as n allows: n−1 WRITEs and 100 PROCEEDs.
    Widest,
    /// Nothing at all, or a first record that ends the listing.
    FirstRecord,
    /// A run with bytes changed, put in or taken out.
    Damaged,
    /// A run cut off anywhere.
    Cut,
    /// Exactly as many bytes as are taken.
    Longest,
    /// One byte more.
    TooLong,
}

pub fn style(seed: u64) -> Style {
    match seed % 16 {
        0..=6 => Style::Run,
        7 => Style::UsedUp,
        8 => Style::Widest,
        9 => Style::FirstRecord,
        10..=12 => Style::Damaged,
        13 => Style::Cut,
        14 => Style::Longest,
        _ => Style::TooLong,
    }
}

pub fn schedule(seed: u64) -> Vec<u8> {
    let random = Random::new(seed);
    match style(seed) {
        Style::Run => run(random),
        Style::UsedUp => used_up(random),
        Style::Widest => widest(random),
        Style::FirstRecord => first_record(random),
        Style::Damaged => damaged(random),
        Style::Cut => cut(random),
        Style::Longest => padded(random, LONGEST),
        Style::TooLong => padded(random, LONGEST + 1),
    }
}

fn run(mut random: Random) -> Vec<u8> {
    let steps = random.pick(&[30, 100, 300, 1000]);
    let mut driver = Driver::fresh(random);
    driver.steps(steps);
    driver.schedule
}

fn used_up(random: Random) -> Vec<u8> {
    let mut driver = Driver::fresh(random);
    driver.use_up();
    driver.schedule
}

fn widest(random: Random) -> Vec<u8> {
    let mut driver = Driver::fresh(random);
    driver.widest_event();
    driver.steps(100);
    driver.schedule
}

fn first_record(mut random: Random) -> Vec<u8> {
    let mut schedule = match random.below(5) {
        0 => return Vec::new(),
        1 => vec![random.between(LENGTHS.len() as u8, u8::MAX)],
        2 => vec![random.between(1, 8); 5],
        _ => refused_set_up(&mut random),
    };
    if random.one_in(3) {
        schedule.truncate(random.between(1, 8).into());
    }
    Record::Drain.push(&mut schedule);
    schedule
}

/// One of n, t and writer out of range.
fn refused_set_up(random: &mut Random) -> Vec<u8> {
    let (n, t, writer) = random.sizes();
    let too_many = random.pick(&[n / 2 + n % 2, n, 128, 255]);
    let (n, t, writer) = match random.below(3) {
        0 => (random.pick(&[0, 8, 9, 255]), t, writer),
        1 => (n, too_many, writer),
        _ => (n, t, random.pick(&[0, n + 1, 255])),
    };
    let mut schedule = Vec::new();
    Record::SetUp { n, t, writer, initial: random.value() }.push(&mut schedule);
    schedule
}

fn damaged(mut random: Random) -> Vec<u8> {
    let mut schedule = run(Random::new(random.bits()));
    for _ in 0..random.between(1, 6) {
        // Mostly behind the set-up, so that there is a run to damage.
        let first = if random.one_in(4) { 0 } else { 8 };
        let place = first + random.below(schedule.len() - first);
        match random.below(4) {
            0 => schedule[place] ^= 1 << random.below(8),
            1 => schedule[place] = random.byte(),
            2 => schedule.insert(place, random.between(0, 9)),
            _ => drop(schedule.remove(place)),
        }
    }
    schedule
}

fn cut(mut random: Random) -> Vec<u8> {
    let mut schedule = run(Random::new(random.bits()));
    schedule.truncate(random.below(schedule.len()));
    schedule
}

/// A used-up run, then refused steps, then drains of one byte each.
fn padded(random: Random, length: usize) -> Vec<u8> {
    let mut driver = Driver::fresh(random);
    driver.use_up();
    while driver.schedule.len() + 8 < length {
        driver.refused_step();
    }
    while driver.schedule.len() < length {
        driver.record(Record::Drain);
    }
    driver.schedule
}
