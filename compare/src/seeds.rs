//! Comparisons over many seeds, and what they met.

use std::collections::BTreeMap;
use std::ops::Range;
use std::panic::resume_unwind;
use std::thread;

/// How often a call met an answer: 0 where it was accepted, else the number of the refusal.
pub type Seen = BTreeMap<(&'static str, u8), usize>;

pub fn count(seen: &mut Seen, call: &'static str, number: u8) {
    *seen.entry((call, number)).or_default() += 1;
}

/// The call met each of these numbers and no other.
pub fn assert_met(seen: &Seen, call: &str, numbers: &[u8]) {
    let met: Vec<u8> = seen.keys().filter(|(c, _)| *c == call).map(|(_, number)| *number).collect();
    assert_eq!(met, numbers, "the numbers of {call}");
}

/// Runs the seeds on as many threads as there are processors, and adds up what was seen.
pub fn over_seeds(seeds: Range<u64>, one: impl Fn(u64, &mut Seen) + Sync) -> Seen {
    let threads = thread::available_parallelism().map_or(1, usize::from);
    let part = |thread: usize| {
        let mut seen = Seen::new();
        seeds.clone().skip(thread).step_by(threads).for_each(|seed| one(seed, &mut seen));
        seen
    };
    thread::scope(|scope| {
        let part = &part;
        let running: Vec<_> =
            (0..threads).map(|thread| scope.spawn(move || part(thread))).collect();
        let mut seen = Seen::new();
        for thread in running {
            for (met, times) in thread.join().unwrap_or_else(|difference| resume_unwind(difference))
            {
                *seen.entry(met).or_default() += times;
            }
        }
        seen
    })
}
