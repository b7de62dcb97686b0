//! The description, "One event at one panel", sentence by sentence, on panels made by hand.

use crate::common::*;
use second::panel::{Finish, Panel};

fn w(panel: &Panel) -> Vec<u8> {
    panel.w[..usize::from(panel.n)].iter().map(|x| x.0).collect()
}

fn r(panel: &Panel) -> Vec<u8> {
    panel.r[..usize::from(panel.n)].iter().map(|x| x.0).collect()
}

// "w[i] grows by one, to x; v joins the history; WRITE(x mod 2, v) goes to each j with w[j] = x−1."
#[test]
fn write_goes_to_those_who_know_the_last() {
    let mut panel = by_hand(1, 2, 2, &[3, 3, 2, 3], &[0; 4]);
    let (finish, sent) = accepted(&mut panel, Event::Write(77));
    assert_eq!((finish, sent), (Finish::Nothing, vec![(1, WRITE0, 77), (4, WRITE0, 77)]));
    assert_eq!((w(&panel), panel.history[4]), (vec![3, 4, 2, 3], 77));
    assert_eq!(operation(&panel), (1, 0));
}

// "r[i] grows by one; READ goes to every other panel. The writer reads like any other panel."
#[test]
fn read_goes_to_every_other_panel() {
    for writer in 1..=4 {
        let mut panel = by_hand(1, writer, 3, &[2, 2, 2, 0], &[5, 4, 5, 1]);
        let (finish, sent) = accepted(&mut panel, Event::Read);
        assert_eq!(finish, Finish::Nothing);
        assert_eq!(sent, [(1, READ, 0), (2, READ, 0), (4, READ, 0)]);
        assert_eq!(r(&panel), [5, 4, 6, 1]);
        assert_eq!(operation(&panel), (2, 0));
    }
}

// "if b is not (w[j]+1) mod 2, it is held and the rule ends."
#[test]
fn a_write_before_its_turn_is_held() {
    for (known, bit) in [(0, WRITE0), (1, WRITE1), (4, WRITE0)] {
        let mut panel = by_hand(1, 1, 2, &[4, 4, known], &[0; 3]);
        let mut expected = panel.clone();
        set_held(&mut expected, 3, 99);
        assert_eq!(accepted(&mut panel, Event::Deliver(bit, 3, 99)), (Finish::Nothing, vec![]));
        assert_eq!(panel, expected);
    }
}

// "If x = w[i]+1: v is learned, w[i] becomes x, and WRITE(x mod 2, v) goes to each l with w[l] = x−1,
// which includes j."
#[test]
fn a_next_value_is_learned_and_forwarded() {
    let mut panel = by_hand(2, 1, 3, &[6, 5, 6, 6, 4], &[0; 5]);
    let (_, sent) = accepted(&mut panel, Event::Deliver(WRITE1, 4, 88));
    assert_eq!(sent, [(1, WRITE1, 88), (4, WRITE1, 88)]);
    assert_eq!((w(&panel), panel.history[7]), (vec![6, 5, 7, 7, 4], 88));
}

// "If x < w[i]: only j gets WRITE((x+1) mod 2, value x+1). Then w[j] becomes x."
#[test]
fn a_lagging_peer_alone_gets_a_message() {
    let mut panel = by_hand(2, 1, 3, &[3, 3, 6, 3, 3], &[0; 5]);
    let (_, sent) = accepted(&mut panel, Event::Deliver(WRITE0, 4, 1004));
    assert_eq!(sent, [(4, WRITE1, 1005)]);
    assert_eq!((w(&panel), panel.history[7]), (vec![3, 3, 6, 4, 3], 0));
}

// The same sentences, x = w[i]: neither case, so nothing is sent. "Then w[j] becomes x."
#[test]
fn a_known_value_is_only_noted() {
    let mut panel = by_hand(2, 1, 3, &[5, 5, 6, 5, 5], &[0; 5]);
    let (_, sent) = accepted(&mut panel, Event::Deliver(WRITE0, 4, 1006));
    assert_eq!((sent, w(&panel)), (vec![], vec![5, 5, 6, 6, 5]));
    // The value that came is of no interest: what is known stays.
    assert_eq!(panel.history[6], 1006);
}

// "Then a held WRITE of j is treated the same way." Both learned: w[i] rises by two in one event.
#[test]
fn held_and_learned() {
    let mut panel = by_hand(2, 1, 3, &[6, 6, 6, 6, 5], &[0; 5]);
    set_held(&mut panel, 4, 92);
    let (_, sent) = accepted(&mut panel, Event::Deliver(WRITE1, 4, 91));
    // After the first, panels 1 and 2 are still known to be at 6, and only 4 at 7.
    assert_eq!(sent, [(1, WRITE1, 91), (2, WRITE1, 91), (4, WRITE1, 91), (4, WRITE0, 92)]);
    assert_eq!(w(&panel), [6, 6, 8, 8, 5]);
    assert_eq!((panel.history[7], panel.history[8]), (91, 92));
    assert_eq!((panel.held[3].full, panel.held[3].value), (false, 0));
}

// The same sentence: the first known already, the held one learned.
#[test]
fn known_then_held_and_learned() {
    let mut panel = by_hand(1, 1, 2, &[1, 1, 0, 1], &[0; 4]);
    set_held(&mut panel, 3, 92);
    let (_, sent) = accepted(&mut panel, Event::Deliver(WRITE1, 3, 1001));
    assert_eq!(sent, [(1, WRITE0, 92), (3, WRITE0, 92), (4, WRITE0, 92)]);
    assert_eq!(w(&panel), [1, 2, 2, 1]);
}

// The same sentence: both behind, so the peer gets its next value twice.
#[test]
fn both_behind() {
    let mut panel = by_hand(1, 1, 2, &[9, 9, 2, 9], &[0; 4]);
    set_held(&mut panel, 3, 1004);
    let (_, sent) = accepted(&mut panel, Event::Deliver(WRITE1, 3, 1003));
    assert_eq!(sent, [(3, WRITE0, 1004), (3, WRITE1, 1005)]);
    assert_eq!(w(&panel), [9, 9, 4, 9]);
}

// "Then READs of j with sn ≤ w[j] leave the line from the front, each sending PROCEED to j."
#[test]
fn waiting_reads_leave_from_the_front() {
    let mut panel = by_hand(1, 1, 2, &[9, 9, 4, 4], &[0; 4]);
    set_line(&mut panel, 3, &[5, 5, 6, 9]);
    set_line(&mut panel, 4, &[5, 9]);
    let (_, sent) = accepted(&mut panel, Event::Deliver(WRITE1, 3, 1005));
    assert_eq!(sent, [(3, WRITE0, 1006), (3, PROCEED, 0), (3, PROCEED, 0)]);
    assert_eq!((line(&panel, 3), line(&panel, 4)), (vec![6, 9], vec![5, 9]));
    assert!(panel.lines[2].sn[2..].iter().all(|x| x.0 == 0), "past the line's end");
}

// "Messages stand in this order: those of the event's own rule, receivers rising; those of the held
// WRITE; PROCEEDs." The READs leave by the last w[j], after both WRITEs.
#[test]
fn order_of_messages() {
    let mut panel = by_hand(1, 1, 2, &[5, 5, 4, 5], &[0; 4]);
    set_held(&mut panel, 3, 96);
    set_line(&mut panel, 3, &[5, 5]);
    let (_, sent) = accepted(&mut panel, Event::Deliver(WRITE1, 3, 1005));
    let expected =
        [(1, WRITE0, 96), (3, WRITE0, 96), (4, WRITE0, 96), (3, PROCEED, 0), (3, PROCEED, 0)];
    assert_eq!(sent, expected);

    let mut panel = by_hand(1, 1, 2, &[9, 9, 4, 9], &[0; 4]);
    set_held(&mut panel, 3, 1006);
    set_line(&mut panel, 3, &[5, 6, 7]);
    let (_, sent) = accepted(&mut panel, Event::Deliver(WRITE1, 3, 1005));
    let expected = [(3, WRITE0, 1006), (3, WRITE1, 1007), (3, PROCEED, 0), (3, PROCEED, 0)];
    assert_eq!((&sent[..], line(&panel, 3)), (&expected[..], vec![7]));
}

// "sn is w[i] at arrival. If w[j] ≥ sn, PROCEED goes to j; otherwise it joins the line."
#[test]
fn read_from_a_peer() {
    let mut panel = by_hand(1, 1, 2, &[5, 5, 4, 0], &[0; 4]);
    set_line(&mut panel, 4, &[1, 3]);
    assert_eq!(accepted(&mut panel, Event::Deliver(READ, 1, 0)).1, [(1, PROCEED, 0)]);
    assert_eq!(accepted(&mut panel, Event::Deliver(READ, 3, 0)).1, []);
    assert_eq!(accepted(&mut panel, Event::Deliver(READ, 4, 0)).1, []);
    assert_eq!(
        (line(&panel, 1), line(&panel, 3), line(&panel, 4)),
        (vec![], vec![5], vec![1, 3, 5])
    );
}

// "r[j] grows by one."
#[test]
fn proceed_from_a_peer() {
    let mut panel = by_hand(1, 1, 2, &[0; 4], &[3, 5, 2, 4]);
    assert_eq!(accepted(&mut panel, Event::Deliver(PROCEED, 3, 0)), (Finish::Nothing, vec![]));
    assert_eq!(r(&panel), [3, 5, 3, 4]);
}

// "each a receiver, a kind and a value (zero for READ and PROCEED)": a READ or PROCEED event has no
// value, so one that is given does nothing.
#[test]
fn read_and_proceed_have_no_value() {
    let panel = by_hand(1, 1, 2, &[5, 5, 4, 5], &[0, 1, 0, 0]);
    for (kind, sender) in [(READ, 1), (READ, 3), (PROCEED, 1)] {
        let (mut zero, mut other) = (panel.clone(), panel.clone());
        let expected = accepted(&mut zero, Event::Deliver(kind, sender, 0));
        assert_eq!(accepted(&mut other, Event::Deliver(kind, sender, 12)), expected);
        assert_eq!(zero, other);
    }
}

// "Writing ends when at least n−t panels j have w[j] = w[i]."
#[test]
fn writing_ends_with_n_less_t() {
    let mut panel = by_hand(2, 1, 1, &[4, 3, 3, 3, 3], &[0; 5]);
    set_operation(&mut panel, 1, 0);
    assert_eq!(accepted(&mut panel, Event::Deliver(WRITE0, 2, 1004)).0, Finish::Nothing);
    assert_eq!(accepted(&mut panel, Event::Deliver(WRITE0, 5, 1004)).0, wrote(4));
    assert_eq!(operation(&panel), (0, 0));
}

// "The first wait ends when at least n−t have r[j] = r[i]; then sn = w[i]. The second wait, which may
// end in the same event, ends when at least n−t have w[j] ≥ sn; the read gives value sn."
#[test]
fn both_waits_end_in_one_event() {
    let mut panel = by_hand(2, 1, 2, &[4, 4, 4, 1, 1], &[6, 7, 7, 0, 0]);
    set_operation(&mut panel, 2, 0);
    assert_eq!(accepted(&mut panel, Event::Deliver(PROCEED, 4, 0)).0, Finish::Nothing);
    assert_eq!(panel.operation.stage, 2);
    assert_eq!(accepted(&mut panel, Event::Deliver(PROCEED, 1, 0)).0, read(4, 1004));
    assert_eq!(operation(&panel), (0, 0));
}

// The same sentences, with one panel too few at value sn.
#[test]
fn second_wait_lasts() {
    let mut panel = by_hand(2, 1, 2, &[4, 4, 3, 1, 1], &[6, 7, 7, 0, 0]);
    set_operation(&mut panel, 2, 0);
    assert_eq!(accepted(&mut panel, Event::Deliver(PROCEED, 1, 0)).0, Finish::Nothing);
    assert_eq!(operation(&panel), (3, 4));
    assert_eq!(accepted(&mut panel, Event::Deliver(WRITE1, 1, 99)).0, Finish::Nothing);
    assert_eq!((panel.operation.stage, panel.operation.sn.0, panel.w[1].0), (3, 4, 5));
    assert_eq!(accepted(&mut panel, Event::Deliver(WRITE0, 3, 1004)).0, read(4, 1004));
}

// "After every accepted event the operation is looked at." In tables made by hand a wait may be met
// already; it ends at the next event of any kind, also at a WRITE that is only held.
#[test]
fn a_met_wait_ends_at_any_event() {
    let panel = by_hand(1, 1, 1, &[4, 4, 2, 4], &[3, 2, 3, 3]);
    let events = [
        Event::Deliver(WRITE0, 3, 55),
        Event::Deliver(WRITE1, 3, 1003),
        Event::Deliver(READ, 2, 0),
        Event::Deliver(READ, 3, 0),
        Event::Deliver(PROCEED, 2, 0),
    ];
    for event in events {
        for (stage, sn, finish) in [(1, 0, wrote(4)), (2, 0, read(4, 1004)), (3, 2, read(2, 1002))]
        {
            let mut panel = panel.clone();
            set_operation(&mut panel, stage, sn);
            assert!(panel.in_form());
            assert_eq!(accepted(&mut panel, event).0, finish, "{event:?} in stage {stage}");
            assert_eq!(operation(&panel), (0, 0));
        }
    }
}

// "WRITE(b, v) from j", "READ from j", "PROCEED from j": the calls with these names.
#[test]
fn calls_by_name() {
    let panel = by_hand(1, 1, 2, &[5, 5, 4, 5], &[0, 1, 0, 0]);
    let cases = [(WRITE0, 1), (WRITE1, 3), (READ, 3), (READ, 4), (PROCEED, 4)];
    for (kind, j) in cases {
        let (mut named, mut lent) = (panel.clone(), Lent::new(107, 107, 107));
        let (a, b, c) = (&mut lent.receivers, &mut lent.kinds, &mut lent.values);
        let reply = match kind {
            READ => named.read_from(j, a, b, c),
            PROCEED => named.proceed_from(j, a, b, c),
            bit => named.write_from(j, bit == 1, 1005, a, b, c),
        };
        let mut plain = panel.clone();
        let (finish, sent) = accepted(&mut plain, Event::Deliver(kind, j, 1005));
        let reply = reply.unwrap();
        assert_eq!((reply.finish, reply.messages, &named), (finish, sent.len(), &plain));
        assert_eq!(lent.receivers[..sent.len()], sent.iter().map(|m| m.0).collect::<Vec<_>>());
        assert_eq!(lent.values[..sent.len()], sent.iter().map(|m| m.2).collect::<Vec<_>>());
    }
}

// "The lent message area holds at least 107 messages": the most that one event sends is 0 + 6 + 100.
#[test]
fn one_event_sends_106() {
    let mut panel = Panel::set_up(7, 3, 1, 2, 0).unwrap();
    for j in [1, 4, 5, 6, 7] {
        accepted(&mut panel, Event::Deliver(WRITE1, j, 11));
    }
    for _ in 0..100 {
        accepted(&mut panel, Event::Deliver(READ, 3, 0));
    }
    accepted(&mut panel, Event::Deliver(WRITE0, 3, 12));
    let (_, sent) = accepted(&mut panel, Event::Deliver(WRITE1, 3, 11));
    let writes: Vec<Sent> = [1, 3, 4, 5, 6, 7].map(|l| (l, WRITE0, 12)).to_vec();
    assert_eq!(sent[..6], writes);
    assert_eq!(sent[6..], vec![(3, PROCEED, 0); 100]);
    assert_eq!(line(&panel, 3), []);
}
