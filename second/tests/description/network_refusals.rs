//! The description, "What a refusal says", at a network: each number with a witness and the other side
//! of its line, and "Numbers are tried from low to high". Number 14 is in `send_refusals`.

use crate::common::*;
use second::network::{Network, Slot};

/// Three panels, t=1, writer 1, all with the write and read numbers given.
fn three_at(w: u8, r: u8) -> Network {
    all_at(3, 1, w, r)
}

fn all_steps() -> Vec<Step> {
    let mut steps = vec![Step::Write(1), Step::Drain];
    for panel in [0, 1, 2, 3, 4, 8, 255] {
        steps.extend([Step::Read(panel), Step::PowerLoss(panel)]);
        for other in [0, 1, 2, 3, 255] {
            steps.extend([0, 1, 2, 3, 4, 255].map(|kind| Step::Deliver(kind, panel, other)));
        }
    }
    steps
}

// 1: "set-up with n, t or writer out of range": exactly when, over all sizes.
#[test]
fn set_up_exactly_when() {
    for n in 0..=20u8 {
        for t in (0..=20).chain(126..=130).chain(254..=255) {
            for writer in (0..=20).chain(254..=255) {
                let fits = (1..=7).contains(&n)
                    && 2 * u32::from(t) < u32::from(n)
                    && (1..=n).contains(&writer);
                let made = Network::set_up(n, t, writer, 3);
                assert_eq!(
                    made.err().map(|e| e.number()),
                    (!fits).then_some(1),
                    "{n} {t} {writer}"
                );
            }
        }
    }
}

// "A **network** is n panels with channels and a set of panels that are down": fresh, everything is
// zero but the sizes, the numbers and the initial value.
#[test]
fn set_up_gives_a_fresh_network() {
    let mut network = Network::set_up(4, 1, 3, 77).unwrap();
    assert!(network.in_form());
    for (number, panel) in (1..=4).zip(&mut network.panels) {
        assert_eq!((panel.n, panel.t, panel.writer, panel.number), (4, 1, 3, number));
        assert_eq!(panel.history[0], 77);
        (panel.n, panel.t, panel.writer, panel.number, panel.history[0]) = (0, 0, 0, 0, 0);
    }
    assert_eq!(network, Network::ZERO);
}

// 2: "tables not in form", of the whole network, also of what the step does not touch; before all others.
#[test]
fn not_in_form_comes_first() {
    let mut panel = three();
    panel.panels[2].history[1] = 1;
    let mut flag = three();
    flag.down[6] = true;
    let mut channel = three();
    channel.channels[1][1].reads = 1;
    for network in [panel, flag, channel, Network::ZERO] {
        for what in all_steps() {
            assert_eq!(step_refusal(&network, what), Some(2), "{what:?}");
        }
        assert_eq!(network.next_delivery().unwrap_err().number(), 2);
    }
}

// 4: "panel number not in 1..n; sender equals receiver", before 5 and all others.
#[test]
fn wrong_numbers() {
    let mut network = three_at(200, 100);
    network.down[1] = true;
    for panel in [0, 4, 7, 8, 255] {
        assert_eq!(step_refusal(&network, Step::Read(panel)), Some(4));
        assert_eq!(step_refusal(&network, Step::PowerLoss(panel)), Some(4));
        for kind in [0, 1, 2, 3, 4, 255] {
            for inside in 1..=3 {
                assert_eq!(step_refusal(&network, Step::Deliver(kind, panel, inside)), Some(4));
                assert_eq!(step_refusal(&network, Step::Deliver(kind, inside, panel)), Some(4));
            }
        }
    }
    for kind in [0, 1, 2, 3, 4, 255] {
        for panel in 1..=3 {
            assert_eq!(step_refusal(&network, Step::Deliver(kind, panel, panel)), Some(4));
        }
    }
}

// 5: "the panel that should act, receive or lose power is down", before 7, 8, 9 and 10.
#[test]
fn down_panel() {
    let mut network = three_at(200, 100);
    network.down[0] = true;
    for stage in [0, 1, 2, 3] {
        set_operation(&mut network.panels[0], stage, 0);
        assert_eq!(step_refusal(&network, Step::Write(1)), Some(5));
        assert_eq!(step_refusal(&network, Step::Read(1)), Some(5));
    }
    assert_eq!(step_refusal(&network, Step::PowerLoss(1)), Some(5), "before 10");
    for kind in [0, 1, 2, 3, 4] {
        assert_eq!(step_refusal(&network, Step::Deliver(kind, 2, 1)), Some(5), "before 9");
    }
}

// "Messages from a down panel can still be delivered." 5 does not look at the sender.
#[test]
fn down_sender() {
    let mut network = three();
    takes(&mut network, Step::Write(650));
    takes(&mut network, Step::PowerLoss(1));
    assert_eq!(step_refusal(&network, Step::Deliver(READ, 1, 2)), Some(9));
    assert_eq!(takes(&mut network, Step::Deliver(WRITE1, 1, 2)), NOTHING);
    assert_eq!(step_refusal(&network, Step::Deliver(WRITE1, 2, 1)), Some(5));
}

// 7: "that panel has an unfinished operation", before 8.
#[test]
fn unfinished() {
    let mut network = three();
    takes(&mut network, Step::Write(1));
    takes(&mut network, Step::Read(2));
    assert_eq!(step_refusal(&network, Step::Write(2)), Some(7));
    assert_eq!(step_refusal(&network, Step::Read(1)), Some(7));
    assert_eq!(step_refusal(&network, Step::Read(2)), Some(7));
    assert_eq!(step_refusal(&network, Step::Read(3)), None);

    let mut network = three_at(200, 100);
    set_operation(&mut network.panels[0], 1, 0);
    assert_eq!(step_refusal(&network, Step::Write(2)), Some(7));
    assert_eq!(step_refusal(&network, Step::Read(1)), Some(7));
}

// 8: "write 201, or read 101 of that panel", before 14: the READ channels are full too.
#[test]
fn used_up() {
    let mut network = three_at(200, 100);
    network.channels[1][0].reads = 100;
    assert_eq!(step_refusal(&network, Step::Write(2)), Some(8));
    assert_eq!(step_refusal(&network, Step::Read(2)), Some(8));
    let network = three_at(199, 99);
    assert_eq!(step_refusal(&network, Step::Write(2)), None);
    assert_eq!(step_refusal(&network, Step::Read(2)), None);
}

// 9: "no such message in flight", before 11 to 13, which each of these would meet. A message of an
// unknown kind is never in flight.
#[test]
fn not_in_flight() {
    let mut network = three_at(200, 0);
    network.panels[1].w[2].0 = 199;
    set_line(&mut network.panels[1], 3, &[200; 100]);
    for kind in [WRITE0, WRITE1, READ, PROCEED, 4, 255] {
        assert_eq!(step_refusal(&network, Step::Deliver(kind, 3, 2)), Some(9));
    }
    let channel = &mut network.channels[2][1];
    channel.writes[1].full = true;
    (channel.reads, channel.proceeds) = (1, 1);
    // Held it would be number 201; no room in the line; no read to proceed with.
    assert_eq!(step_refusal(&network, Step::Deliver(WRITE1, 3, 2)), Some(11));
    assert_eq!(step_refusal(&network, Step::Deliver(READ, 3, 2)), Some(13));
    assert_eq!(step_refusal(&network, Step::Deliver(PROCEED, 3, 2)), Some(12));
    assert_eq!(step_refusal(&network, Step::Deliver(WRITE0, 3, 2)), Some(9));
    assert_eq!(step_refusal(&network, Step::Deliver(4, 3, 2)), Some(9));
}

// 10: "power loss with t panels down already".
#[test]
fn too_many_down() {
    for n in 1..=7 {
        for t in 0..=(n - 1) / 2 {
            let mut network = Network::set_up(n, t, 1, 0).unwrap();
            for panel in 1..=t {
                takes(&mut network, Step::PowerLoss(panel));
            }
            assert_eq!(step_refusal(&network, Step::PowerLoss(n)), Some(10));
            let down: Vec<bool> = (1..=7).map(|panel| panel <= t).collect();
            assert_eq!(network.down[..], down);
        }
    }
}

// 11 at a network: "at the writer above w[i]; or it must be held and one is held".
#[test]
fn stray_writes() {
    let mut network = three_at(4, 0);
    for receiver in [0, 2] {
        network.channels[1][receiver].writes = [Slot { full: true, value: 5 }; 2];
    }
    // At the writer numbers 5 and 6 are above w[1]; at panel 3 both are taken while nothing is held.
    assert_eq!(step_refusal(&network, Step::Deliver(WRITE1, 2, 1)), Some(11));
    assert_eq!(step_refusal(&network, Step::Deliver(WRITE0, 2, 1)), Some(11));
    assert_eq!(step_refusal(&network, Step::Deliver(WRITE1, 2, 3)), None);
    assert_eq!(step_refusal(&network, Step::Deliver(WRITE0, 2, 3)), None);
    set_held(&mut network.panels[2], 2, 9);
    assert_eq!(step_refusal(&network, Step::Deliver(WRITE1, 2, 3)), None);
    assert_eq!(step_refusal(&network, Step::Deliver(WRITE0, 2, 3)), Some(11));
}

// "From a fresh network 2 and 11 to 14 never occur; tables made by hand, or a stray message to a lone
// panel, meet them": 12 and 13 by hand in a network.
#[test]
fn proceeds_and_lines_by_hand() {
    let mut network = three_at(4, 5);
    network.channels[0][1].proceeds = 1;
    assert_eq!(step_refusal(&network, Step::Deliver(PROCEED, 1, 2)), Some(12));
    network.panels[1].r[0].0 = 4;
    assert_eq!(step_refusal(&network, Step::Deliver(PROCEED, 1, 2)), None);

    network.panels[1].w[2].0 = 3;
    network.channels[2][1].reads = 2;
    set_line(&mut network.panels[1], 3, &[4; 99]);
    assert_eq!(takes(&mut network, Step::Deliver(READ, 3, 2)), NOTHING);
    assert_eq!(step_refusal(&network, Step::Deliver(READ, 3, 2)), Some(13));
}
