//! The description, "What a refusal says", number 14: "a message sent finds its WRITE bit taken, or 100
//! READs or 100 PROCEEDs in flight". It is looked at for all messages of the event before any change.

use crate::common::*;
use second::network::{Network, Slot};

const TAKEN: Slot = Slot { full: true, value: 9 };

/// Five panels, t=2, writer 1, all knowing four writes; panel 2 has read twice.
fn five() -> Network {
    let mut network = all_at(5, 2, 4, 0);
    network.panels[1].r[1].0 = 2;
    network
}

// 14: "a message sent finds its WRITE bit taken": at the start of a write.
#[test]
fn write_bit_taken_at_a_start() {
    let mut network = five();
    network.channels[0][4].writes[0] = TAKEN;
    assert_eq!(step_refusal(&network, Step::Write(1)), None, "write 5 has bit 1");
    network.channels[0][4].writes[1] = TAKEN;
    assert_eq!(step_refusal(&network, Step::Write(1)), Some(14));
    network.panels[0].w[4].0 = 3;
    assert_eq!(step_refusal(&network, Step::Write(1)), None, "panel 5 lags and gets nothing");
}

// 14: "a message sent finds its WRITE bit taken": when a value is learned and forwarded.
#[test]
fn write_bit_taken_at_a_forward() {
    let mut network = five();
    network.channels[0][1].writes[1] = Slot { full: true, value: 55 };
    assert_eq!(step_refusal(&network, Step::Deliver(WRITE1, 1, 2)), None);
    for receiver in [0, 2, 3, 4] {
        let mut network = network.clone();
        network.channels[1][receiver].writes[1] = TAKEN;
        assert_eq!(step_refusal(&network, Step::Deliver(WRITE1, 1, 2)), Some(14));
        network.channels[1][receiver].writes = [TAKEN, Slot::EMPTY];
        assert_eq!(step_refusal(&network, Step::Deliver(WRITE1, 1, 2)), None);
    }
}

// 14: "a message sent finds its WRITE bit taken": by either of the two WRITEs of one event.
#[test]
fn write_bit_taken_for_a_lagging_peer_and_for_a_held_one() {
    let mut network = five();
    network.panels[1].w[2].0 = 1;
    network.channels[2][1].writes[0] = Slot { full: true, value: 1002 };
    set_held(&mut network.panels[1], 3, 1003);
    // WRITE 2 of panel 3 is answered with number 3, the held one with number 4.
    assert_eq!(step_refusal(&network, Step::Deliver(WRITE0, 3, 2)), None);
    for bit in [0, 1] {
        let mut network = network.clone();
        network.channels[1][2].writes[bit] = TAKEN;
        assert_eq!(step_refusal(&network, Step::Deliver(WRITE0, 3, 2)), Some(14));
    }
}

// 14: "or 100 READs ... in flight"
#[test]
fn a_hundred_reads_in_flight() {
    let mut network = five();
    for (reads, expected) in [(99, None), (100, Some(14))] {
        network.channels[3][4].reads = reads;
        assert_eq!(step_refusal(&network, Step::Read(4)), expected);
    }
}

// 14: "or 100 PROCEEDs in flight"
#[test]
fn a_hundred_proceeds_in_flight() {
    let mut network = five();
    network.channels[2][3].reads = 1;
    for (proceeds, expected) in [(99, None), (100, Some(14))] {
        network.channels[3][2].proceeds = proceeds;
        assert_eq!(step_refusal(&network, Step::Deliver(READ, 3, 4)), expected);
    }
}

// 14: "or 100 PROCEEDs in flight": all PROCEEDs of one event count, here three.
#[test]
fn proceeds_of_one_event() {
    let mut network = five();
    network.panels[1].w[2].0 = 3;
    set_line(&mut network.panels[1], 3, &[4, 4, 4]);
    network.channels[2][1].writes[0] = Slot { full: true, value: 1004 };
    for (proceeds, expected) in [(96, None), (97, None), (98, Some(14)), (99, Some(14))] {
        network.channels[1][2].proceeds = proceeds;
        assert_eq!(step_refusal(&network, Step::Deliver(WRITE0, 3, 2)), expected);
    }
    network.channels[1][2].proceeds = 97;
    takes(&mut network, Step::Deliver(WRITE0, 3, 2));
    assert_eq!(network.channels[1][2].proceeds, 100);
}

// 14: "a message sent finds ..., or 100 READs ... in flight": a message to a down panel is one as well.
#[test]
fn sent_to_a_down_panel() {
    let mut network = five();
    network.channels[3][4].reads = 100;
    takes(&mut network, Step::PowerLoss(5));
    assert_eq!(step_refusal(&network, Step::Read(4)), Some(14));
    assert_eq!(step_refusal(&network, Step::Read(3)), None);
}

// "If a delivery within it is refused, the whole drain is refused with that number." Deliveries come
// before the refused one, and none of them stays.
#[test]
fn refused_drains() {
    // Two deliveries that are accepted and come first: READ 2→3 and its PROCEED.
    let mut network = five();
    network.channels[1][2].reads = 1;
    assert_eq!(network.clone().drain(), Ok(2));

    let mut stray = network.clone();
    stray.channels[4][0].writes[0] = TAKEN;
    assert_eq!(step_refusal(&stray, Step::Drain), Some(11));

    let mut proceed = network.clone();
    proceed.channels[4][3].proceeds = 1;
    assert_eq!(step_refusal(&proceed, Step::Drain), Some(12));

    let mut line = network.clone();
    line.panels[3].w[4].0 = 3;
    set_line(&mut line.panels[3], 5, &[4; 100]);
    line.channels[4][3].reads = 1;
    assert_eq!(step_refusal(&line, Step::Drain), Some(13));

    // Panel 5 is down, so that its PROCEEDs stay in flight.
    let mut full = network.clone();
    full.channels[4][3].reads = 1;
    full.channels[3][4].proceeds = 100;
    full.down[4] = true;
    assert_eq!(step_refusal(&full, Step::Drain), Some(14));
    full.channels[3][4].proceeds = 99;
    assert_eq!(full.drain(), Ok(3));
    assert_eq!(full.channels[3][4].proceeds, 100);
}
