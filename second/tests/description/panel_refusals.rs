//! The description, "What a refusal says", at a lone panel: each number with a witness and with the other
//! side of its line, and "Numbers are tried from low to high".

use crate::common::*;
use second::panel::Panel;

const SHORT: [usize; 3] = [106, 106, 106];

fn short(panel: &Panel, event: Event) -> Option<u8> {
    try_in(&mut panel.clone(), event, SHORT).err()
}

/// Every event that can be told apart by its refusals.
fn all_events() -> Vec<Event> {
    let mut events = vec![Event::Write(1), Event::Read];
    for kind in [0, 1, 2, 3, 4, 255] {
        events.extend([0, 1, 2, 3, 4, 8, 255].map(|sender| Event::Deliver(kind, sender, 1)));
    }
    events
}

// 1: "set-up with n, t or writer out of range". 4: "panel number not in 1..n".
#[test]
fn set_up_tries_1_then_4() {
    let number = |n, t, writer, own| Panel::set_up(n, t, writer, own, 9).err().map(|e| e.number());
    for t in [2, 3, 127, 128, 129, 255] {
        assert_eq!(number(3, t, 1, 1), Some(1), "t={t}");
        assert_eq!(number(3, t, 1, 0), Some(1), "t={t}");
    }
    for own in [0, 4, 7, 8, 255] {
        assert_eq!(number(3, 1, 1, own), Some(4), "own number {own}");
        assert_eq!(number(3, 1, 4, own), Some(1), "own number {own}");
        assert_eq!(number(8, 1, 1, own), Some(1), "own number {own}");
    }
    for own in 1..=3 {
        assert_eq!(number(3, 1, 1, own), None);
    }
}

// The figure's initialization: history[0] is the initial value, everything else zero.
#[test]
fn set_up_gives_a_fresh_panel() {
    let panel = Panel::set_up(5, 2, 4, 3, 9).unwrap();
    assert_eq!((panel.n, panel.t, panel.writer, panel.number), (5, 2, 4, 3));
    assert_eq!(panel.history[0], 9);
    let mut zero = panel.clone();
    (zero.n, zero.t, zero.writer, zero.number, zero.history[0]) = (0, 0, 0, 0, 0);
    assert_eq!(zero, Panel::ZERO);
    assert!(panel.in_form());
}

// 2: "tables not in form", before all others.
#[test]
fn not_in_form_comes_first() {
    let mut panel = of_three(2);
    panel.w[6].0 = 1;
    for event in all_events() {
        assert_eq!(refusal(&panel, event), Some(2), "{event:?}");
        assert_eq!(short(&panel, event), Some(2), "{event:?}");
    }
}

// 3: "message area under 107", before all but 2.
#[test]
fn short_area_comes_second() {
    for panel in [of_three(1), of_three(2), by_hand(1, 1, 1, &[200, 0, 0], &[100, 0, 0])] {
        for event in all_events() {
            assert_eq!(short(&panel, event), Some(3), "{event:?}");
        }
    }
}

// 4: "panel number not in 1..n; ... peer is the panel itself", before 11, 12, 13 and 15.
#[test]
fn wrong_peer() {
    // Panel 2 has read nothing, knows all 200 writes, and 3's line is full: from 3, 11 to 13 are met.
    let mut panel = by_hand(1, 1, 2, &[200, 200, 199], &[0; 3]);
    set_line(&mut panel, 3, &[200; 100]);
    for sender in [0, 2, 4, 7, 8, 255] {
        for kind in [0, 1, 2, 3, 4, 200, 255] {
            let event = Event::Deliver(kind, sender, 1);
            assert_eq!(refusal(&panel, event), Some(4), "{event:?}");
        }
    }
    let from_3 = |kind| refusal(&panel, Event::Deliver(kind, 3, 1));
    assert_eq!([0, 1, 2, 3, 4].map(from_3), [None, Some(11), Some(13), Some(12), Some(15)]);
}

// 6: "write asked of a panel that isn't the writer", before 7 and 8.
#[test]
fn write_elsewhere() {
    assert_eq!(refusal(&of_three(2), Event::Write(1)), Some(6));
    let mut reading = of_three(2);
    accepted(&mut reading, Event::Read);
    assert_eq!(refusal(&reading, Event::Write(1)), Some(6));
    let at_the_end = by_hand(1, 1, 2, &[200, 200, 200], &[0; 3]);
    assert_eq!(refusal(&at_the_end, Event::Write(1)), Some(6));
    assert_eq!(refusal(&of_three(1), Event::Write(1)), None);
}

// 7: "that panel has an unfinished operation", before 8.
#[test]
fn unfinished_operation() {
    for stage in [1, 2, 3] {
        for (w, r) in [(1, 1), (199, 99), (200, 100)] {
            let mut panel = by_hand(1, 1, 1, &[w, 0, 0], &[r, 0, 0]);
            set_operation(&mut panel, stage, 0);
            assert_eq!(refusal(&panel, Event::Write(1)), Some(7), "stage {stage}");
            assert_eq!(refusal(&panel, Event::Read), Some(7), "stage {stage}");
        }
    }
}

// 7, in tables made by hand: an operation whose wait is met is unfinished until the next event.
#[test]
fn a_met_wait_is_unfinished() {
    for stage in [1, 2, 3] {
        let mut panel = by_hand(1, 1, 1, &[4, 4, 4], &[2, 2, 2]);
        set_operation(&mut panel, stage, 0);
        assert_eq!(refusal(&panel, Event::Write(1)), Some(7));
        assert_eq!(refusal(&panel, Event::Read), Some(7));
        accepted(&mut panel, Event::Deliver(READ, 2, 0));
        assert_eq!(refusal(&panel, Event::Write(1)), None);
        assert_eq!(refusal(&panel, Event::Read), None);
    }
}

// 8: "write 201, or read 101 of that panel".
#[test]
fn used_up() {
    let at = |w, r| by_hand(1, 1, 1, &[w, 0, 0], &[r, 0, 0]);
    assert_eq!(refusal(&at(200, 99), Event::Write(1)), Some(8));
    assert_eq!(refusal(&at(199, 100), Event::Write(1)), None);
    assert_eq!(refusal(&at(199, 100), Event::Read), Some(8));
    assert_eq!(refusal(&at(200, 99), Event::Read), None);
}

// 11: "WRITE whose number (w[j]+1, or w[j]+2 when the bit differs) is above 200".
#[test]
fn write_above_200() {
    let number = |known, bit| {
        let panel = by_hand(1, 1, 2, &[200, 200, known], &[0; 3]);
        refusal(&panel, Event::Deliver(bit, 3, 1))
    };
    // In turn: number 201 from 200 has bit 1, number 200 from 199 has bit 0.
    assert_eq!((number(200, WRITE1), number(199, WRITE0)), (Some(11), None));
    // To be held: 202 from 200, 201 from 199, 200 from 198.
    assert_eq!((number(200, WRITE0), number(199, WRITE1)), (Some(11), Some(11)));
    assert_eq!(number(198, WRITE0), None);
    // A panel that is itself at 199 learns write 200.
    let panel = by_hand(1, 1, 2, &[199, 199, 199], &[0; 3]);
    assert_eq!(refusal(&panel, Event::Deliver(WRITE0, 3, 1)), None);
}

// 11: "or at the writer above w[i]".
#[test]
fn write_above_the_writer() {
    let number = |known, bit| {
        let panel = by_hand(1, 1, 1, &[5, 0, known], &[0; 3]);
        refusal(&panel, Event::Deliver(bit, 3, 1))
    };
    assert_eq!((number(5, WRITE0), number(4, WRITE1)), (Some(11), None));
    assert_eq!((number(4, WRITE0), number(5, WRITE1)), (Some(11), Some(11)));
    assert_eq!(number(3, WRITE1), None);
    // Anywhere else the same numbers are taken.
    let panel = by_hand(1, 2, 1, &[5, 0, 5], &[0; 3]);
    assert_eq!(refusal(&panel, Event::Deliver(WRITE0, 3, 1)), None);
    assert_eq!(refusal(&panel, Event::Deliver(WRITE1, 3, 1)), None);
}

// 11: "or it must be held and one is held". A WRITE in its turn is not refused for the one behind it.
#[test]
fn second_write_to_be_held() {
    let mut panel = by_hand(1, 1, 2, &[5, 5, 1], &[0; 3]);
    assert_eq!(refusal(&panel, Event::Deliver(WRITE1, 3, 1)), None);
    set_held(&mut panel, 3, 1003);
    assert_eq!(refusal(&panel, Event::Deliver(WRITE1, 3, 1)), Some(11));
    assert_eq!(refusal(&panel, Event::Deliver(WRITE0, 3, 1002)), None);
    assert_eq!(refusal(&panel, Event::Deliver(WRITE1, 1, 1)), None, "another peer's hold");
}

// 12: "PROCEED with r[j] = r[i]".
#[test]
fn proceed_too_many() {
    let panel = by_hand(1, 1, 2, &[0; 3], &[4, 5, 5]);
    assert_eq!(refusal(&panel, Event::Deliver(PROCEED, 3, 0)), Some(12));
    assert_eq!(refusal(&panel, Event::Deliver(PROCEED, 1, 0)), None);
}

// 13: "READ that must wait, line has 100".
#[test]
fn line_full() {
    let with_line = |len| {
        let mut panel = by_hand(1, 1, 2, &[5, 5, 4], &[0; 3]);
        set_line(&mut panel, 3, &vec![5; len]);
        panel
    };
    assert_eq!(refusal(&with_line(100), Event::Deliver(READ, 3, 0)), Some(13));
    assert_eq!(refusal(&with_line(99), Event::Deliver(READ, 3, 0)), None);
    assert_eq!(refusal(&with_line(100), Event::Deliver(READ, 1, 0)), None, "need not wait");
}

// 15: "unknown kind byte", after all others.
#[test]
fn unknown_kind() {
    for kind in 4..=255 {
        assert_eq!(refusal(&of_three(2), Event::Deliver(kind, 1, 0)), Some(15));
    }
}
