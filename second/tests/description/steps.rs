//! The description, "The network's steps".

use crate::common::*;
use second::network::{Delivery, Network, Slot};

fn next(network: &Network) -> Option<(u8, u8, u8)> {
    let found = network.next_delivery().expect("a network in form");
    found.map(|Delivery { kind, sender, receiver }| (kind, sender, receiver))
}

// "A delivery takes one message out of the channel and runs the event; messages sent go into channels."
#[test]
fn a_delivery_takes_one_message() {
    let mut network = three();
    takes(&mut network, Step::Read(3));
    assert_eq!(messages(&network), [(READ, 3, 1), (READ, 3, 2)]);
    takes(&mut network, Step::Deliver(READ, 3, 1));
    assert_eq!(messages(&network), [(PROCEED, 1, 3), (READ, 3, 2)]);
    takes(&mut network, Step::Deliver(PROCEED, 1, 3));
    assert_eq!(messages(&network), [(READ, 3, 2)]);
    takes(&mut network, Step::Read(3));
    assert_eq!(messages(&network), [(READ, 3, 1), (READ, 3, 2), (READ, 3, 2)]);
    takes(&mut network, Step::Deliver(READ, 3, 2));
    assert_eq!(messages(&network), [(PROCEED, 2, 3), (READ, 3, 1), (READ, 3, 2)]);
}

// "A delivery takes one message out of the channel": its slot is empty again, its value zero.
#[test]
fn a_delivered_write_leaves_an_empty_slot() {
    let mut network = three();
    takes(&mut network, Step::Write(650));
    assert_eq!(network.channels[0][1].writes, [Slot::EMPTY, Slot { full: true, value: 650 }]);
    takes(&mut network, Step::Deliver(WRITE1, 1, 2));
    assert_eq!(network.channels[0][1].writes, [Slot { full: false, value: 0 }; 2]);
    assert_eq!(network.panels[1].history[..2], [700, 650]);
}

// "Start a write (at the writer)": whichever panel that is.
#[test]
fn a_write_starts_at_the_writer() {
    for writer in 1..=4 {
        let mut network = Network::set_up(4, 1, writer, 0).unwrap();
        takes(&mut network, Step::Write(5));
        let others = (1..=4).filter(|&j| j != writer).map(|j| (WRITE1, writer, j));
        assert_eq!(messages(&network), others.collect::<Vec<_>>());
    }
}

// "A drain delivers the first message in flight to a live panel, by sender, then receiver, then kind".
#[test]
fn the_first_message_in_flight() {
    let mut network = Network::set_up(4, 1, 1, 0).unwrap();
    assert_eq!(next(&network), None);
    network.channels[3][2].proceeds = 2;
    assert_eq!(next(&network), Some((PROCEED, 4, 3)));
    network.channels[3][2].reads = 1;
    assert_eq!(next(&network), Some((READ, 4, 3)));
    network.channels[3][2].writes[1].full = true;
    assert_eq!(next(&network), Some((WRITE1, 4, 3)));
    network.channels[3][2].writes[0].full = true;
    assert_eq!(next(&network), Some((WRITE0, 4, 3)));
    network.channels[3][1].proceeds = 1;
    assert_eq!(next(&network), Some((PROCEED, 4, 2)));
    network.channels[1][3].proceeds = 1;
    assert_eq!(next(&network), Some((PROCEED, 2, 4)));
    network.channels[0][3].proceeds = 1;
    assert_eq!(next(&network), Some((PROCEED, 1, 4)));
    // "Live" means powered: the receiver, and not the sender.
    network.down[3] = true;
    assert_eq!(next(&network), Some((PROCEED, 4, 2)));
}

// "and repeats until there is none. Its answer counts its deliveries." "Ten deliveries in all: 1·3·2 +
// 2·1·2."
#[test]
fn a_drain_counts() {
    let mut network = three();
    assert_eq!(takes(&mut network, Step::Drain), Answer::Drained(0));
    takes(&mut network, Step::Write(650));
    takes(&mut network, Step::Read(3));
    assert_eq!(takes(&mut network, Step::Drain), Answer::Drained(10));
    assert_eq!(messages(&network), []);
    assert_eq!(takes(&mut network, Step::Drain), Answer::Drained(0));
    for panel in &network.panels[..3] {
        assert_eq!((panel.history[1], panel.operation.stage), (650, 0));
    }
}

// "A drain delivers the first message in flight to a live panel": what is in flight to a down one stays.
#[test]
fn a_drain_leaves_what_goes_to_a_down_panel() {
    let mut network = three();
    takes(&mut network, Step::Write(650));
    takes(&mut network, Step::Read(3));
    takes(&mut network, Step::PowerLoss(3));
    // WRITE1 1→2 and 2→1; READ 3→1 waits there, as does READ 3→2, for panel 3 says no more.
    assert_eq!(takes(&mut network, Step::Drain), Answer::Drained(4));
    assert_eq!(messages(&network), [(WRITE1, 1, 3), (WRITE1, 2, 3)]);
    assert_eq!((line(&network.panels[0], 3), line(&network.panels[1], 3)), (vec![1], vec![1]));
}

// "power loss": only the flag changes. "Power is lost only between steps": messages sent stay in flight.
#[test]
fn a_power_loss_changes_a_flag() {
    let mut network = three();
    takes(&mut network, Step::Write(650));
    let mut expected = network.clone();
    expected.down[0] = true;
    takes(&mut network, Step::PowerLoss(1));
    assert_eq!(network, expected);
}

// The most one event sends, "reached from fresh" in a network: 0 + 6 + 100 messages, all with room.
#[test]
fn one_event_sends_106_from_fresh() {
    let mut network = Network::set_up(7, 3, 1, 0).unwrap();
    takes(&mut network, Step::Write(11));
    // Everything but what goes from 3 to 2.
    let deliver_all = |network: &mut Network| loop {
        let rest: Vec<_> = messages(network).into_iter().filter(|m| (m.1, m.2) != (3, 2)).collect();
        let Some(&(kind, sender, receiver)) = rest.first() else {
            return;
        };
        takes(network, Step::Deliver(kind, sender, receiver));
    };
    deliver_all(&mut network);
    for _ in 0..100 {
        takes(&mut network, Step::Read(3));
        deliver_all(&mut network);
        takes(&mut network, Step::Deliver(READ, 3, 2));
        assert_eq!(network.panels[2].operation.stage, 0, "enough others have answered");
    }
    assert_eq!(line(&network.panels[1], 3), [1; 100]);
    takes(&mut network, Step::Write(12));
    takes(&mut network, Step::Deliver(WRITE0, 1, 3));
    takes(&mut network, Step::Deliver(WRITE0, 3, 2));
    let before = messages(&network).len();
    takes(&mut network, Step::Deliver(WRITE1, 3, 2));
    assert_eq!(messages(&network).len(), before - 1 + 106);
    assert_eq!(network.channels[1][2].proceeds, 100);
    takes(&mut network, Step::Drain);
    assert_eq!(network.panels[2].r.map(|x| x.0), [100; 7]);
}
