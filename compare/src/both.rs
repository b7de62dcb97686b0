//! What comparisons share: inputs for both programs, and the second program's set-up as the proved one
//! gives it.

use second::generate_tables;
use second::network::Network;
use second::panel::{Panel, WriteNumber, SECOND_WAIT};
use second::random::Random;
use second::refusal::Refusal;

/// The panel of a seed, in form or not.
pub fn panel_by_hand(seed: u64) -> Panel {
    made_sayable(generate_tables::panel(seed))
}

/// The network of a seed, in form or not.
pub fn network_by_hand(seed: u64) -> Network {
    let mut network = generate_tables::network(seed);
    network.panels = network.panels.map(made_sayable);
    network
}

/// Stages above 3, and an sn outside the second wait, are not in form for the second program and cannot
/// be said in the proved panel's type.
fn made_sayable(mut panel: Panel) -> Panel {
    panel.operation.stage %= SECOND_WAIT + 1;
    if panel.operation.stage != SECOND_WAIT {
        panel.operation.sn = WriteNumber::ZERO;
    }
    panel
}

/// Mostly a panel's number.
pub fn any_number(random: &mut Random, n: u8) -> u8 {
    match random.below(12) {
        0 => random.byte(),
        1 => random.pick(&[0, n.wrapping_add(1)]),
        _ => random.between(1, n.clamp(1, 7)),
    }
}

/// The small numbers, and two large ones.
pub fn small_numbers() -> impl Iterator<Item = u8> {
    (0..=9).chain([128, 255])
}

/// n, t, writer and initial value of set-ups, in range and not.
pub fn set_ups() -> Vec<(u8, u8, u8, u32)> {
    let mut found = Vec::new();
    for n in small_numbers() {
        for t in small_numbers() {
            for writer in small_numbers() {
                found.extend([0, 650, u32::MAX].map(|initial| (n, t, writer, initial)));
            }
        }
    }
    found
}

/// The second program's set-up, as a number and tables; zeros where it refuses.
pub fn number_and_tables<T>(made: Result<T, Refusal>, zeros: T) -> (u8, T) {
    match made {
        Ok(tables) => (0, tables),
        Err(refusal) => (refusal.number(), zeros),
    }
}

/// A set-up with the initial value 700, and drains behind it up to this length.
pub fn drains([n, t, writer]: [u8; 3], length: usize) -> Vec<u8> {
    let mut schedule = vec![0, n, t, writer, 0, 0, 2, 0xBC];
    schedule.resize(length, 8);
    schedule
}
