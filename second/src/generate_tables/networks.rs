//! Networks in form: made by hand, taken out of a run, and taken out of a run and then altered.

use super::panels::panel_with;
use crate::generate_schedules::driver::Driver;
use crate::network::{Channel, Network, Slot};
use crate::panel::place;
use crate::random::Random;
use crate::tables;
use crate::READS;

pub fn network_in_form(random: &mut Random) -> Network {
    match random.below(4) {
        0 => network_by_hand(random),
        1 => from_a_run(random),
        _ => altered(random),
    }
}

/// Panels and channels that know nothing of each other.
pub fn network_by_hand(random: &mut Random) -> Network {
    let (n, t, writer) = random.sizes();
    let initial = random.value();
    let mut network = Network::ZERO;
    for number in 1..=n {
        let panel = panel_with(random, n, t, writer, number, initial);
        network.panels[place(number)] = panel;
    }
    for _ in 0..random.between(0, t) {
        network.down[random.below(n.into())] = true;
    }
    fill_channels(random, &mut network, n.into());
    network
}

fn fill_channels(random: &mut Random, network: &mut Network, n: usize) {
    let among = random.pick(&[2, 4, 20]);
    for sender in 0..n {
        for receiver in (0..n).filter(|&receiver| receiver != sender) {
            network.channels[sender][receiver] = channel(random, among);
        }
    }
}

fn channel(random: &mut Random, among: usize) -> Channel {
    let writes = [(); 2].map(|()| match random.one_in(among) {
        true => Slot { full: true, value: random.value() },
        false => Slot::EMPTY,
    });
    Channel { writes, reads: count(random, among), proceeds: count(random, among) }
}

fn count(random: &mut Random, among: usize) -> u8 {
    let full = READS as u8;
    match random.one_in(among) {
        true => random.pick(&[1, 2, full / 2, full - 1, full]),
        false => 0,
    }
}

fn from_a_run(random: &mut Random) -> Network {
    let mut driver = Driver::fresh(Random::new(random.bits()));
    driver.steps(random.pick(&[0, 5, 20, 100, 400]));
    driver.network
}

/// Changes that keep the form, single ones and small ones, so that much of the run is left.
fn altered(random: &mut Random) -> Network {
    let mut network = from_a_run(random);
    for _ in 0..random.between(1, 10) {
        let mut next = network.clone();
        alter(random, &mut next);
        if next.in_form() {
            network = next;
        }
    }
    network
}

fn alter(random: &mut Random, network: &mut Network) {
    let n = usize::from(network.panels[0].n);
    let (a, b) = (random.below(n), random.below(n));
    match random.below(6) {
        0 => network.channels[a][b] = channel(random, 2),
        1 => network.down[a] = !network.down[a],
        2 => network.panels[a].w[b].0 = network.panels[a].w[b].0.saturating_sub(1),
        3 => network.panels[a].r[b].0 = network.panels[a].r[b].0.saturating_sub(1),
        4 => network.panels[a].held[b].full = true,
        _ => change_a_byte(random, network),
    }
}

fn change_a_byte(random: &mut Random, network: &mut Network) {
    let mut bytes = tables::network_to_bytes(network);
    let place = random.below(bytes.len());
    bytes[place] = random.pick(&[0, 1, 2, 3, 100, 200]);
    *network = tables::network_from_bytes(&bytes);
}
