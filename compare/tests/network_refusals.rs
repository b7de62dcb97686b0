//! Each refusal that a network's calls give, on networks made by hand, on the proved program alone: the
//! numbers are those of the description, "What a refusal says", and what is refused alters nothing. Beside
//! each stands a network just on the other side of the line. And the description's own listing.

use compare::network::{drain, next_delivery, set_up, take, Step};
use second::network::{Delivery, Network, Slot};
use second::panel::{Finish, Held, Line, Operation, ReadNumber, WriteNumber};
use second::panel::{FIRST_WAIT, WRITING};
use second::tables::{network_from_bytes, network_to_bytes};

const WRITE0: u8 = 0;
const WRITE1: u8 = 1;
const READ: u8 = 2;
const PROCEED: u8 = 3;

/// n = 3, t = 1, writer 1, as the description's cases have it; nothing has happened.
fn fresh() -> Network {
    let mut network = Network::ZERO;
    for (number, panel) in (1..=3).zip(&mut network.panels) {
        (panel.n, panel.t, panel.writer, panel.number) = (3, 1, 1, number);
        panel.history[0] = 18;
    }
    network
}

fn fresh_with(change: impl Fn(&mut Network)) -> Network {
    let mut network = fresh();
    change(&mut network);
    network
}

fn deliver(kind: u8, sender: u8, receiver: u8) -> Step {
    Step::Deliver(Delivery { kind, sender, receiver })
}

/// Puts one message into a channel.
fn send(network: &mut Network, kind: u8, sender: usize, receiver: usize) {
    let channel = &mut network.channels[sender - 1][receiver - 1];
    match kind {
        READ => channel.reads += 1,
        PROCEED => channel.proceeds += 1,
        bit => channel.writes[usize::from(bit)] = Slot { full: true, value: 7 },
    }
}

/// Its own write number, with what it knows of panel 1.
fn knows(network: &mut Network, panel: usize, own: u8, of_the_first: u8) {
    let panel = &mut network.panels[panel - 1];
    panel.w[0] = WriteNumber(of_the_first);
    panel.w[usize::from(panel.number) - 1] = WriteNumber(own);
}

/// In its first wait of its first read.
fn reading(network: &mut Network, panel: usize) {
    let tables = &mut network.panels[panel - 1];
    tables.r[panel - 1] = ReadNumber(1);
    tables.operation = Operation { stage: FIRST_WAIT, sn: WriteNumber::ZERO };
}

fn refused(network: &Network, step: Step, number: u8) {
    let tables = network_to_bytes(network);
    let stepped = take(&tables, step);
    assert_eq!(stepped.answer, Err(number), "{step:?}");
    assert!(stepped.tables == tables, "{step:?} is refused and alters something");
}

fn accepted(network: &Network, step: Step) -> Network {
    let tables = network_to_bytes(network);
    let stepped = take(&tables, step);
    assert!(stepped.answer.is_ok(), "{step:?}: {:?}", stepped.answer);
    assert!(stepped.tables != tables, "{step:?} is accepted and alters nothing");
    network_from_bytes(&stepped.tables)
}

fn drain_refused(network: &Network, number: u8) {
    let tables = network_to_bytes(network);
    let drained = drain(&tables);
    assert_eq!(drained.count, Err(number));
    assert!(drained.tables == tables, "a refused drain alters something");
}

#[test]
fn refusal_1_set_up_out_of_range() {
    let wrong = [(0, 0, 1), (8, 0, 1), (8, 3, 1), (6, 3, 1), (1, 1, 1), (3, 1, 0), (3, 1, 4)];
    for (n, t, writer) in wrong {
        let (number, tables) = set_up(n, t, writer, 18);
        assert_eq!(number, 1, "n {n} t {t} writer {writer}");
        assert!(tables.iter().all(|&byte| byte == 0), "n {n} t {t} writer {writer}");
    }
    for (n, t, writer) in [(1, 0, 1), (7, 3, 1), (7, 3, 7), (6, 2, 6), (3, 1, 3)] {
        assert_eq!(set_up(n, t, writer, 18).0, 0, "n {n} t {t} writer {writer}");
    }
    assert!(set_up(3, 1, 1, 18) == (0, network_to_bytes(&fresh())));
}

#[test]
fn refusal_2_not_in_form() {
    let broken = [
        fresh_with(|network| network.panels[1].w[0] = WriteNumber(1)),
        fresh_with(|network| network.panels[2].history[0] = 19),
        fresh_with(|network| network.panels.swap(0, 1)),
        fresh_with(|network| network.panels[6].n = 3),
        fresh_with(|network| network.down = [true, true, false, false, false, false, false]),
        fresh_with(|network| network.down[3] = true),
        fresh_with(|network| send(network, READ, 1, 1)),
        fresh_with(|network| send(network, READ, 1, 4)),
        fresh_with(|network| network.channels[0][1].reads = 101),
        fresh_with(|network| network.channels[0][1].proceeds = 101),
        fresh_with(|network| network.channels[0][1].writes[0] = Slot { full: false, value: 1 }),
    ];
    for network in broken {
        let steps = [Step::Write(7), Step::Read(1), deliver(READ, 1, 2), Step::PowerLoss(1)];
        steps.into_iter().for_each(|step| refused(&network, step, 2));
        refused(&network, Step::Read(0), 2);
        assert_eq!(next_delivery(&network_to_bytes(&network)), Err(2));
        drain_refused(&network, 2);
    }
    assert_eq!(next_delivery(&network_to_bytes(&fresh())), Ok(None));
}

#[test]
fn refusal_4_panel_number() {
    let network = fresh();
    for outside in [0, 4, 7, 8, 255] {
        refused(&network, Step::Read(outside), 4);
        refused(&network, Step::PowerLoss(outside), 4);
        for kind in [WRITE0, WRITE1, READ, PROCEED] {
            refused(&network, deliver(kind, outside, 1), 4);
            refused(&network, deliver(kind, 1, outside), 4);
        }
    }
    for panel in 1..=3 {
        refused(&network, deliver(READ, panel, panel), 4);
        accepted(&network, Step::Read(panel));
        accepted(&network, Step::PowerLoss(panel));
    }
}

/// "Messages from a down panel can still be delivered."
#[test]
fn refusal_5_down() {
    let network = fresh_with(|network| {
        network.down[1] = true;
        send(network, READ, 1, 2);
        send(network, READ, 2, 1);
    });
    refused(&network, Step::Read(2), 5);
    refused(&network, Step::PowerLoss(2), 5);
    refused(&network, deliver(READ, 1, 2), 5);
    refused(&network, deliver(WRITE0, 1, 2), 5);
    accepted(&network, deliver(READ, 2, 1));
    accepted(&network, Step::Write(7));
    refused(&fresh_with(|network| network.down[0] = true), Step::Write(7), 5);
}

#[test]
fn refusal_7_unfinished_operation() {
    let network = fresh_with(|network| {
        knows(network, 1, 1, 1);
        network.panels[0].operation = Operation { stage: WRITING, sn: WriteNumber::ZERO };
        reading(network, 3);
    });
    refused(&network, Step::Write(7), 7);
    refused(&network, Step::Read(1), 7);
    refused(&network, Step::Read(3), 7);
    accepted(&network, Step::Read(2));
}

#[test]
fn refusal_8_used_up() {
    refused(&fresh_with(|network| knows(network, 1, 200, 200)), Step::Write(7), 8);
    accepted(&fresh_with(|network| knows(network, 1, 199, 199)), Step::Write(7));
    let after = |reads| fresh_with(|network| network.panels[1].r[1] = ReadNumber(reads));
    refused(&after(100), Step::Read(2), 8);
    accepted(&after(99), Step::Read(2));
}

/// No message of an unknown kind is ever in flight.
#[test]
fn refusal_9_not_in_flight() {
    for kind in [WRITE0, WRITE1, READ, PROCEED, 4, 255] {
        refused(&fresh(), deliver(kind, 1, 2), 9);
    }
    let network = fresh_with(|network| send(network, READ, 1, 2));
    refused(&network, deliver(PROCEED, 1, 2), 9);
    refused(&network, deliver(READ, 2, 1), 9);
    refused(&network, deliver(READ, 1, 3), 9);
    refused(&network, deliver(4, 1, 2), 9);
    accepted(&network, deliver(READ, 1, 2));
}

#[test]
fn refusal_10_too_many_down() {
    let one_down = accepted(&fresh(), Step::PowerLoss(2));
    refused(&one_down, Step::PowerLoss(3), 10);
    let none_may = fresh_with(|network| network.panels[..3].iter_mut().for_each(|p| p.t = 0));
    refused(&none_may, Step::PowerLoss(2), 10);
}

#[test]
fn refusal_11_write_numbered_above_the_writers() {
    let network = fresh_with(|network| {
        send(network, WRITE0, 2, 1);
        send(network, WRITE1, 2, 1);
        send(network, WRITE1, 2, 3);
    });
    refused(&network, deliver(WRITE1, 2, 1), 11);
    refused(&network, deliver(WRITE0, 2, 1), 11);
    accepted(&network, deliver(WRITE1, 2, 3));
}

/// The bit of number 200 is 0.
#[test]
fn refusal_11_write_numbered_above_200() {
    let both = |known| {
        fresh_with(|network| {
            knows(network, 2, 200, known);
            send(network, WRITE0, 1, 2);
            send(network, WRITE1, 1, 2);
        })
    };
    refused(&both(200), deliver(WRITE1, 1, 2), 11);
    refused(&both(200), deliver(WRITE0, 1, 2), 11);
    refused(&both(199), deliver(WRITE1, 1, 2), 11);
    accepted(&both(199), deliver(WRITE0, 1, 2));
    accepted(&both(198), deliver(WRITE0, 1, 2));
}

#[test]
fn refusal_11_one_is_held_already() {
    let waiting = |full| {
        fresh_with(|network| {
            network.panels[1].held[2] = Held { full, value: 0 };
            send(network, WRITE0, 3, 2);
            send(network, WRITE1, 3, 2);
        })
    };
    refused(&waiting(true), deliver(WRITE0, 3, 2), 11);
    accepted(&waiting(true), deliver(WRITE1, 3, 2));
    accepted(&waiting(false), deliver(WRITE0, 3, 2));
}

#[test]
fn refusal_12_stray_proceed() {
    let network = fresh_with(|network| send(network, PROCEED, 3, 2));
    refused(&network, deliver(PROCEED, 3, 2), 12);
    let network = fresh_with(|network| {
        send(network, PROCEED, 3, 2);
        reading(network, 2);
    });
    accepted(&network, deliver(PROCEED, 3, 2));
}

/// Panel 2 has learned write 1 and does not know that panel 3 has; `len` READs of panel 3 wait for it.
fn with_line(len: u8) -> Network {
    fresh_with(|network| {
        knows(network, 2, 1, 1);
        let mut line = Line { len, ..Line::EMPTY };
        line.sn[..usize::from(len)].fill(WriteNumber(1));
        network.panels[1].lines[2] = line;
        send(network, READ, 3, 2);
    })
}

#[test]
fn refusal_13_line_full() {
    refused(&with_line(100), deliver(READ, 3, 2), 13);
    let next = accepted(&with_line(99), deliver(READ, 3, 2));
    assert_eq!(next.panels[1].lines[2].len, 100);
}

#[test]
fn refusal_14_write_bit_taken() {
    for receiver in [2, 3] {
        refused(&fresh_with(|network| send(network, WRITE1, 1, receiver)), Step::Write(7), 14);
        accepted(&fresh_with(|network| send(network, WRITE0, 1, receiver)), Step::Write(7));
    }
}

#[test]
fn refusal_14_100_reads_in_flight() {
    let with = |reads| fresh_with(|network| network.channels[1][2].reads = reads);
    refused(&with(100), Step::Read(2), 14);
    assert_eq!(accepted(&with(99), Step::Read(2)).channels[1][2].reads, 100);
}

#[test]
fn refusal_14_100_proceeds_in_flight() {
    let with = |proceeds| {
        fresh_with(|network| {
            network.channels[1][2].proceeds = proceeds;
            send(network, READ, 3, 2);
        })
    };
    refused(&with(100), deliver(READ, 3, 2), 14);
    assert_eq!(accepted(&with(99), deliver(READ, 3, 2)).channels[1][2].proceeds, 100);
}

/// "If a delivery within it is refused, the whole drain is refused with that number": in each the first
/// deliveries are accepted, and the network comes back as it was all the same.
#[test]
fn a_drain_is_refused_whole() {
    // the PROCEED that answers 1's READ is a stray one
    drain_refused(&fresh_with(|network| send(network, READ, 1, 2)), 12);
    let finishes = |network: &mut Network| {
        reading(network, 3);
        send(network, PROCEED, 1, 3);
    };
    assert_eq!(drain(&network_to_bytes(&fresh_with(finishes))).count, Ok(1));
    let mut network = fresh_with(finishes);
    send(&mut network, WRITE1, 2, 1);
    drain_refused(&network, 11);
    let mut network = with_line(100);
    finishes(&mut network);
    drain_refused(&network, 13);
    let mut network = fresh_with(|network| {
        reading(network, 1);
        send(network, READ, 1, 2);
        network.down[2] = true;
        network.channels[1][2].proceeds = 100;
        send(network, READ, 3, 2);
    });
    drain_refused(&network, 14);
    network.channels[1][2].proceeds = 99;
    assert_eq!(drain(&network_to_bytes(&network)).count, Ok(3));
}

/// "By sender, then receiver, then kind", and only to a live panel.
#[test]
fn the_first_message_in_flight() {
    let mut network = fresh();
    let in_order = [(1, 2, READ), (1, 2, PROCEED), (1, 3, WRITE0), (2, 1, WRITE1), (3, 1, WRITE0)];
    for &(sender, receiver, kind) in in_order.iter().rev() {
        send(&mut network, kind, sender.into(), receiver.into());
        let first = Delivery { kind, sender, receiver };
        assert_eq!(next_delivery(&network_to_bytes(&network)), Ok(Some(first)));
    }
    network.down[1] = true;
    let first = Delivery { kind: WRITE0, sender: 1, receiver: 3 };
    assert_eq!(next_delivery(&network_to_bytes(&network)), Ok(Some(first)));
}

/// "Input, in hex .. Output": steps 1 to 14 with their results.
#[test]
fn the_listing_of_the_description() {
    let (number, mut tables) = set_up(3, 1, 1, 700);
    assert_eq!(number, 0);
    let mut then = |step, finish| {
        let stepped = take(&tables, step);
        assert_eq!(stepped.answer, Ok(finish), "{step:?}");
        tables = stepped.tables;
        tables
    };
    then(Step::Write(650), Finish::Nothing);
    then(deliver(WRITE1, 1, 2), Finish::Nothing);
    then(deliver(WRITE1, 2, 1), Finish::Write(WriteNumber(1)));
    let undrained = then(Step::Read(3), Finish::Nothing);
    let drained = drain(&undrained);
    assert_eq!(drained.count, Ok(8));
    let delivered = [
        (WRITE1, 1, 3, Finish::Nothing),
        (WRITE1, 2, 3, Finish::Nothing),
        (WRITE1, 3, 1, Finish::Nothing),
        (READ, 3, 1, Finish::Nothing),
        (PROCEED, 1, 3, Finish::Read(WriteNumber(1), 650)),
        (WRITE1, 3, 2, Finish::Nothing),
        (READ, 3, 2, Finish::Nothing),
        (PROCEED, 2, 3, Finish::Nothing),
    ];
    let mut at = undrained;
    for (kind, sender, receiver, finish) in delivered {
        assert_eq!(next_delivery(&at), Ok(Some(Delivery { kind, sender, receiver })));
        at = then(deliver(kind, sender, receiver), finish);
    }
    assert_eq!(next_delivery(&at), Ok(None));
    assert!(at == drained.tables);
}
