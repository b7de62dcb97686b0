//! Panels and networks made by hand, by seed: in form, with exactly one clause of "in form" broken, and
//! noise. They meet the refusals that no run from fresh does.

mod broken_networks;
mod broken_panels;
mod networks;
mod panels;

pub use broken_networks::{network_broken, NetworkClause};
pub use broken_panels::{panel_broken, PanelClause};
pub use networks::{network_by_hand, network_in_form};
pub use panels::panel_in_form;

use crate::network::Network;
use crate::panel::Panel;
use crate::random::Random;
use crate::tables;

pub fn panel(seed: u64) -> Panel {
    let broken = |random: &mut Random| {
        let clause = random.pick(&PanelClause::ALL);
        panel_broken(random, clause)
    };
    by_seed(seed, panel_in_form, broken, panel_noise)
}

pub fn network(seed: u64) -> Network {
    let broken = |random: &mut Random| {
        let clause = NetworkClause::any(random);
        network_broken(random, clause)
    };
    by_seed(seed, network_in_form, broken, network_noise)
}

/// One way to make tables.
type Make<Tables> = fn(&mut Random) -> Tables;

/// Half in form, most others with one clause broken, some noise.
fn by_seed<T>(seed: u64, in_form: Make<T>, broken: Make<T>, noise: Make<T>) -> T {
    let mut random = Random::new(seed);
    let make = match random.below(8) {
        0..=3 => in_form,
        4..=6 => broken,
        _ => noise,
    };
    make(&mut random)
}

/// Bytes of no meaning at all, or a panel in form with some bytes changed.
fn panel_noise(random: &mut Random) -> Panel {
    let mut bytes = tables::panel_to_bytes(&panel_in_form(random));
    make_noise(random, &mut bytes);
    tables::panel_from_bytes(&bytes)
}

/// Bytes of no meaning at all, or a network in form with some bytes changed.
fn network_noise(random: &mut Random) -> Network {
    let mut bytes = tables::network_to_bytes(&network_in_form(random));
    make_noise(random, &mut bytes);
    tables::network_from_bytes(&bytes)
}

fn make_noise(random: &mut Random, bytes: &mut [u8]) {
    if random.one_in(2) {
        return random.fill(bytes);
    }
    for _ in 0..random.between(1, 20) {
        bytes[random.below(bytes.len())] = random.byte();
    }
}
