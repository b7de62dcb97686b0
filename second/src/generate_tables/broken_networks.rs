//! Networks with exactly one clause of "in form" broken, all the others kept.

use super::broken_panels::{break_panel, PanelClause};
use super::networks::network_in_form;
use crate::network::{Channel, Network, Slot};
use crate::panel::{Panel, WRITING};
use crate::random::Random;
use crate::{PANELS, READS};

/// The description, "Tables of a panel", the sentence on networks, clause by clause in its order.
#[derive(Clone, Copy, PartialEq, Eq, Debug)]
pub enum NetworkClause {
    PanelInForm(PanelClause),
    AgreeOnN,
    AgreeOnT,
    AgreeOnWriter,
    AgreeOnInitial,
    NumberedInOrder,
    AtMostTDown,
    AtMost100Reads,
    AtMost100Proceeds,
    NothingToItself,
    PanelsPastN,
    PowerPastN,
    ChannelsPastN,
    EmptySlotValue,
}

use NetworkClause as Clause;

impl NetworkClause {
    /// Those of the network itself.
    pub const OWN: [Clause; 13] = [
        Clause::AgreeOnN,
        Clause::AgreeOnT,
        Clause::AgreeOnWriter,
        Clause::AgreeOnInitial,
        Clause::NumberedInOrder,
        Clause::AtMostTDown,
        Clause::AtMost100Reads,
        Clause::AtMost100Proceeds,
        Clause::NothingToItself,
        Clause::PanelsPastN,
        Clause::PowerPastN,
        Clause::ChannelsPastN,
        Clause::EmptySlotValue,
    ];

    pub(super) fn any(random: &mut Random) -> NetworkClause {
        if random.one_in(2) {
            return Clause::PanelInForm(random.pick(&PanelClause::ALL));
        }
        random.pick(&Clause::OWN)
    }
}

/// Takes networks in form until one can be broken at this clause alone.
pub fn network_broken(random: &mut Random, clause: NetworkClause) -> Network {
    loop {
        let mut network = network_in_form(random);
        if break_network(random, &mut network, clause) {
            return network;
        }
    }
}

/// False, with the network of no further use, when it has no place to break this clause alone.
fn break_network(random: &mut Random, network: &mut Network, clause: NetworkClause) -> bool {
    let n = usize::from(network.panels[0].n);
    match clause {
        Clause::PanelInForm(inner) => break_one_panel(random, network, inner),
        Clause::NumberedInOrder if n >= 2 => {
            let k = random.below(n - 1);
            network.panels.swap(k, k + 1);
            true
        }
        Clause::NumberedInOrder => false,
        Clause::AtMostTDown => break_power(random, network, n),
        Clause::PanelsPastN | Clause::PowerPastN | Clause::ChannelsPastN => {
            n < PANELS && break_unused(random, network, clause)
        }
        Clause::AtMost100Reads
        | Clause::AtMost100Proceeds
        | Clause::NothingToItself
        | Clause::EmptySlotValue => break_channel(random, network, clause),
        _ => n >= 2 && break_agreement(random, network, clause),
    }
}

/// A size that does not fit is given to all panels, so that they still agree. A panel number that is
/// out of range is out of order as well, which cannot be helped.
fn break_one_panel(random: &mut Random, network: &mut Network, clause: PanelClause) -> bool {
    let n = usize::from(network.panels[0].n);
    let k = random.below(n);
    if !break_panel(random, &mut network.panels[k], clause) {
        return false;
    }
    let Panel { n: told, t, writer, .. } = network.panels[k];
    let used = &mut network.panels[..n];
    for panel in used.iter_mut() {
        (panel.n, panel.t, panel.writer) = (told, t, writer);
    }
    match clause {
        // With fewer than seven panels some that n asks for would be missing.
        PanelClause::NFits => n == PANELS,
        PanelClause::WriterFits => used.iter().all(|panel| panel.operation.stage != WRITING),
        _ => true,
    }
}

/// A panel other than the first, still in form by itself.
fn break_agreement(random: &mut Random, network: &mut Network, clause: NetworkClause) -> bool {
    let n = network.panels[0].n;
    let panel = &mut network.panels[usize::from(random.between(1, n - 1))];
    let before = panel.clone();
    match clause {
        Clause::AgreeOnN => panel.n = random.between(1, PANELS as u8),
        Clause::AgreeOnT => panel.t = random.between(0, (n - 1) / 2),
        Clause::AgreeOnWriter => panel.writer = random.between(1, n),
        _ => panel.history[0] = random.value(),
    }
    *panel != before && panel.in_form()
}

fn break_power(random: &mut Random, network: &mut Network, n: usize) -> bool {
    let t = usize::from(network.panels[0].t);
    let wanted = t + 1 + random.below(n - t);
    while network.how_many_down() < wanted {
        network.down[random.below(n)] = true;
    }
    true
}

fn break_unused(random: &mut Random, network: &mut Network, clause: NetworkClause) -> bool {
    let n = usize::from(network.panels[0].n);
    let past = random.pick(&[n, PANELS - 1]);
    let any = random.below(past);
    match clause {
        Clause::PanelsPastN if random.one_in(2) => network.panels[past].n = n as u8,
        Clause::PanelsPastN => network.panels[past].history[random.below(201)] = 1,
        Clause::PowerPastN => network.down[past] = true,
        _ if random.one_in(2) => network.channels[past][any] = some_channel(random),
        _ => network.channels[any][past] = some_channel(random),
    }
    true
}

fn break_channel(random: &mut Random, network: &mut Network, clause: NetworkClause) -> bool {
    let n = usize::from(network.panels[0].n);
    let (a, b) = (random.below(n), random.below(n));
    if clause == Clause::NothingToItself {
        network.channels[a][a] = some_channel(random);
        return true;
    }
    let channel = &mut network.channels[a][b];
    let too_many = random.pick(&[READS as u8 + 1, 255]);
    match clause {
        Clause::AtMost100Reads => channel.reads = too_many,
        Clause::AtMost100Proceeds => channel.proceeds = too_many,
        _ => channel.writes[random.below(2)] = Slot { full: false, value: 1 },
    }
    a != b
}

/// Not empty, and one that two panels may have between them.
fn some_channel(random: &mut Random) -> Channel {
    let mut channel = Channel::EMPTY;
    match random.below(3) {
        0 => channel.reads = 1,
        1 => channel.proceeds = READS as u8,
        _ => channel.writes[random.below(2)] = Slot { full: true, value: random.value() },
    }
    channel
}
