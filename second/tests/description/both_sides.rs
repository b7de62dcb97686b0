//! The description, "Both sides of each line". "n=3, t=1, writer 1 unless said."

use crate::common::*;
use second::network::Network;
use second::panel::{Finish, Panel};
use second::wire;

fn set_up_number(n: u8, t: u8, writer: u8) -> Option<u8> {
    let network = Network::set_up(n, t, writer, 5).err();
    let panel = Panel::set_up(n, t, writer, 1, 5).err();
    assert_eq!(network, panel, "a lone panel's set-up looks at the same sizes");
    network.map(|refusal| refusal.number())
}

// "P n=7, t=3 taken; P n=6, t=3 refused 1."
#[test]
fn seven_with_three_taken_six_with_three_not() {
    assert_eq!(set_up_number(7, 3, 1), None);
    assert_eq!(set_up_number(6, 3, 1), Some(1));
    assert_eq!(set_up_number(6, 2, 1), None);
}

// "n=0 and n=8 refused 1; writer 0 and writer n+1 refused 1."
#[test]
fn sizes_out_of_range() {
    assert_eq!(set_up_number(0, 0, 1), Some(1));
    assert_eq!(set_up_number(8, 0, 1), Some(1));
    for n in 1..=7 {
        assert_eq!(set_up_number(n, 0, 0), Some(1));
        assert_eq!(set_up_number(n, 0, n + 1), Some(1));
        assert_eq!(set_up_number(n, 0, 1), None);
        assert_eq!(set_up_number(n, 0, n), None);
    }
}

// "P n=1, t=0: a write and a read each finish in their own start."
#[test]
fn alone_both_finish_at_once() {
    let mut panel = Panel::set_up(1, 0, 1, 1, 5).unwrap();
    assert_eq!(accepted(&mut panel, Event::Read), (read(0, 5), vec![]));
    assert_eq!(accepted(&mut panel, Event::Write(9)), (wrote(1), vec![]));
    assert_eq!(accepted(&mut panel, Event::Read), (read(1, 9), vec![]));

    let mut network = Network::set_up(1, 0, 1, 5).unwrap();
    assert_eq!(takes(&mut network, Step::Write(9)), Answer::Done(wrote(1)));
    assert_eq!(takes(&mut network, Step::Read(1)), Answer::Done(read(1, 9)));
}

/// The listing's records up to and with the step given, without the first two, which are the set-up
/// and write 650.
fn listing_steps(last: usize) -> Network {
    let mut network = three();
    takes(&mut network, Step::Write(650));
    let steps = [
        (3, Step::Deliver(WRITE1, 1, 2)),
        (4, Step::Deliver(WRITE1, 2, 1)),
        (5, Step::Read(3)),
        (6, Step::Deliver(WRITE1, 1, 3)),
        (7, Step::Deliver(WRITE1, 2, 3)),
        (8, Step::Deliver(WRITE1, 3, 1)),
        (9, Step::Deliver(READ, 3, 1)),
    ];
    for (_, what) in steps.iter().filter(|(number, _)| *number <= last) {
        takes(&mut network, *what);
    }
    network
}

// "P The listing's step 3: panel 2 sends to 1 and 3."
#[test]
fn step_3_sends_to_1_and_3() {
    let mut panel = of_three(2);
    let (finish, sent) = accepted(&mut panel, Event::Deliver(WRITE1, 1, 650));
    assert_eq!((finish, sent), (Finish::Nothing, vec![(1, 1, 650), (3, 1, 650)]));

    // In flight: what the write sent to 3, and what panel 2 sent.
    let network = listing_steps(3);
    assert_eq!(messages(&network), [(WRITE1, 1, 3), (WRITE1, 2, 1), (WRITE1, 2, 3)]);
    assert_eq!(network.channels[1][0].writes[1].value, 650);
    assert_eq!(network.channels[1][2].writes[1].value, 650);
}

// "P Step 4 finishes write 1."
#[test]
fn step_4_finishes_write_1() {
    let mut network = listing_steps(3);
    let answer = takes(&mut network, Step::Deliver(WRITE1, 2, 1));
    assert_eq!(answer, Answer::Done(wrote(1)));
}

// "P Step 10 gives 650."
#[test]
fn step_10_gives_650() {
    let mut network = listing_steps(9);
    let answer = takes(&mut network, Step::Deliver(PROCEED, 1, 3));
    assert_eq!(answer, Answer::Done(read(1, 650)));
}

// "P READ from 3 at panel 2 right after step 3 waits with sn 1; P the WRITE1 from 3 then sends one
// PROCEED."
#[test]
fn read_waits_with_sn_1() {
    let mut panel = of_three(2);
    accepted(&mut panel, Event::Deliver(WRITE1, 1, 650));
    let (_, sent) = accepted(&mut panel, Event::Deliver(READ, 3, 0));
    assert_eq!((sent, line(&panel, 3)), (vec![], vec![1]));
    let (_, sent) = accepted(&mut panel, Event::Deliver(WRITE1, 3, 650));
    assert_eq!((sent, line(&panel, 3)), (vec![(3, PROCEED, 0)], vec![]));
}

// "P Overtaking: write A; WRITE1 1→2, 1→3, 3→1 (write ends), 2→3, 3→2; write B goes to 3 only; WRITE0
// 1→3, 3→2; WRITE0 2→1 is held and sends nothing; P WRITE1 2→1 then sends one WRITE0 to 2 and finishes
// write 2."
#[test]
fn overtaking() {
    let (a, b) = (0xAAAA_0000, 0x0000_BBBB);
    let mut network = three();
    takes(&mut network, Step::Write(a));
    takes(&mut network, Step::Deliver(WRITE1, 1, 2));
    takes(&mut network, Step::Deliver(WRITE1, 1, 3));
    assert_eq!(takes(&mut network, Step::Deliver(WRITE1, 3, 1)), Answer::Done(wrote(1)));
    takes(&mut network, Step::Deliver(WRITE1, 2, 3));
    takes(&mut network, Step::Deliver(WRITE1, 3, 2));
    assert_eq!(messages(&network), [(WRITE1, 2, 1)]);

    takes(&mut network, Step::Write(b));
    assert_eq!(messages(&network), [(WRITE0, 1, 3), (WRITE1, 2, 1)]);
    takes(&mut network, Step::Deliver(WRITE0, 1, 3));
    takes(&mut network, Step::Deliver(WRITE0, 3, 2));

    let mut before = messages(&network);
    assert_eq!(takes(&mut network, Step::Deliver(WRITE0, 2, 1)), NOTHING);
    before.retain(|&message| message != (WRITE0, 2, 1));
    assert_eq!(messages(&network), before);
    let held = network.panels[0].held[1];
    assert_eq!((held.full, held.value), (true, b));

    assert_eq!(takes(&mut network, Step::Deliver(WRITE1, 2, 1)), Answer::Done(wrote(2)));
    before.retain(|&message| message != (WRITE1, 2, 1));
    before.insert(0, (WRITE0, 1, 2));
    assert_eq!(messages(&network), before);
    assert_eq!(network.channels[0][1].writes[0].value, b);
    assert!(!network.panels[0].held[1].full);
}

// "P PROCEED at a panel that has read nothing: 12."
#[test]
fn proceed_without_a_read() {
    assert_eq!(refusal(&of_three(2), Event::Deliver(PROCEED, 1, 0)), Some(12));
    let mut panel = of_three(2);
    accepted(&mut panel, Event::Read);
    assert_eq!(refusal(&panel, Event::Deliver(PROCEED, 1, 0)), None);
}

// "P With t=1, power loss of 2 and then of 3: 10."
#[test]
fn second_power_loss() {
    let mut network = three();
    assert_eq!(takes(&mut network, Step::PowerLoss(2)), Answer::PowerLost);
    assert_eq!(step(&mut network, Step::PowerLoss(3)), Err(10));
}

// "Write 200 taken, 201 refused 8."
#[test]
fn write_200_and_201() {
    let mut network = three();
    for number in 1..=200 {
        takes(&mut network, Step::Write(u32::from(number)));
        takes(&mut network, Step::Drain);
        assert_eq!(network.panels[0].w[0].0, number);
    }
    assert_eq!(step(&mut network, Step::Write(201)), Err(8));
}

// "Message area of 107 taken, 106 refused 3."
#[test]
fn area_of_107_and_106() {
    let read_something = {
        let mut panel = of_three(1);
        accepted(&mut panel, Event::Read);
        panel
    };
    let cases = [
        (of_three(1), Event::Write(1)),
        (of_three(1), Event::Read),
        (of_three(2), Event::Deliver(WRITE0, 1, 1)),
        (of_three(2), Event::Deliver(WRITE1, 1, 1)),
        (of_three(2), Event::Deliver(READ, 1, 0)),
        (read_something, Event::Deliver(PROCEED, 2, 0)),
    ];
    for (panel, event) in cases {
        let number = |lengths| try_in(&mut panel.clone(), event, lengths).err();
        assert_eq!(number([107, 107, 107]), None, "{event:?}");
        assert_eq!(number([200, 107, 108]), None, "{event:?}");
        for short in [[106, 107, 107], [107, 106, 107], [107, 107, 106], [0, 0, 0]] {
            assert_eq!(number(short), Some(3), "{event:?}");
        }
    }
}

// "Byte 4 on the wire: 15."
#[test]
fn byte_4_on_the_wire() {
    assert_eq!(wire::read(&[4]).unwrap_err().number(), 15);
    assert_eq!(wire::read(&[4, 0, 0, 0, 0]).unwrap_err().number(), 15);
    assert_eq!(wire::read(&[3]).unwrap().kind, 3);
}
