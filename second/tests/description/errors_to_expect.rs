//! The description, "Errors to expect": for each a case that a program with that error gets wrong.

use crate::common::*;
use second::panel::Finish;

// "Setting w[j] before forwarding, so that j gets no echo and the writer waits for ever."
#[test]
fn the_sender_gets_its_echo() {
    for n in 2..=7u8 {
        let mut panel = second::panel::Panel::set_up(n, 0, 1, 2, 0).unwrap();
        let (_, sent) = accepted(&mut panel, Event::Deliver(WRITE1, 1, 7));
        let others: Vec<Sent> = (1..=n).filter(|&l| l != 2).map(|l| (l, WRITE1, 7)).collect();
        assert_eq!(sent, others);
        assert_eq!(panel.w[0].0, 1);
    }
    // The same for a held WRITE: 3 gets an echo of both.
    let mut panel = by_hand(1, 1, 2, &[0, 0, 0], &[0, 0, 0]);
    set_held(&mut panel, 3, 52);
    let (_, sent) = accepted(&mut panel, Event::Deliver(WRITE1, 3, 51));
    assert_eq!(sent, [(1, WRITE1, 51), (3, WRITE1, 51), (3, WRITE0, 52)]);
}

// "Taking sn when the READ is answered and not when it came."
#[test]
fn sn_is_taken_when_the_read_came() {
    let mut panel = of_three(2);
    accepted(&mut panel, Event::Deliver(WRITE1, 1, 51));
    accepted(&mut panel, Event::Deliver(READ, 3, 0));
    accepted(&mut panel, Event::Deliver(WRITE0, 1, 52));
    assert_eq!(line(&panel, 3), [1]);
    // Panel 2 knows value 2 by now, and 3 is known to be at 1: enough for a READ that came with sn 1.
    let (_, sent) = accepted(&mut panel, Event::Deliver(WRITE1, 3, 51));
    assert_eq!(sent, [(3, WRITE0, 52), (3, PROCEED, 0)]);
    assert_eq!((panel.w[1].0, panel.w[2].0), (2, 1));
}

// "Giving the newest value at the end of a read and not value sn, which lets a later read give an
// older one."
#[test]
fn a_read_gives_value_sn() {
    // n=3, t=0: all three have to know value sn, so the second wait lasts.
    let mut panel = second::panel::Panel::set_up(3, 0, 1, 2, 50).unwrap();
    accepted(&mut panel, Event::Deliver(WRITE1, 1, 51));
    accepted(&mut panel, Event::Read);
    accepted(&mut panel, Event::Deliver(PROCEED, 1, 0));
    assert_eq!(accepted(&mut panel, Event::Deliver(PROCEED, 3, 0)).0, Finish::Nothing);
    assert_eq!(operation(&panel), (3, 1));
    assert_eq!(accepted(&mut panel, Event::Deliver(WRITE0, 1, 52)).0, Finish::Nothing);
    assert_eq!(panel.w[1].0, 2);
    let (finish, sent) = accepted(&mut panel, Event::Deliver(WRITE1, 3, 51));
    assert_eq!((finish, sent), (read(1, 51), vec![(3, WRITE0, 52)]));
    assert_eq!(operation(&panel), (0, 0));
}

// "Clearing r at each read, so that a late PROCEED counts for the wrong one."
#[test]
fn a_late_proceed_counts_for_its_own_read() {
    let mut panel = of_three(3);
    accepted(&mut panel, Event::Read);
    assert_eq!(accepted(&mut panel, Event::Deliver(PROCEED, 1, 0)).0, read(0, 700));
    accepted(&mut panel, Event::Read);
    // The PROCEED of panel 2 for read 1 comes during read 2.
    assert_eq!(accepted(&mut panel, Event::Deliver(PROCEED, 2, 0)).0, Finish::Nothing);
    assert_eq!(panel.r.map(|x| x.0), [1, 1, 2, 0, 0, 0, 0]);
    assert_eq!(accepted(&mut panel, Event::Deliver(PROCEED, 2, 0)).0, read(0, 700));
}

// "Sending a lagging peer the newest value and not its next."
#[test]
fn a_lagging_peer_gets_its_next_value() {
    let mut panel = by_hand(1, 1, 2, &[5, 5, 1], &[0, 0, 0]);
    let (_, sent) = accepted(&mut panel, Event::Deliver(WRITE0, 3, 1002));
    assert_eq!(sent, [(3, WRITE1, 1003)]);
    let (_, sent) = accepted(&mut panel, Event::Deliver(WRITE1, 3, 1003));
    assert_eq!(sent, [(3, WRITE0, 1004)]);
}
