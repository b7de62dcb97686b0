//! The description, "Tables of a panel": in form, each clause from both sides by hand, and the program's
//! test held against the clauses on tables of every make.

use crate::clauses::{broken_in_network, broken_in_panel};
use crate::common::*;
use second::generate_tables as generate;
use second::generate_tables::{NetworkClause, PanelClause};
use second::network::{Network, Slot};
use second::panel::{Line, Operation, Panel, WriteNumber};
use second::random::Random;

/// A panel in form with something in every table: panel 2 of 5, t=2, writer 1.
fn rich() -> Panel {
    let mut panel = by_hand(2, 1, 2, &[6, 6, 4, 3, 6], &[2, 3, 1, 3, 0]);
    set_operation(&mut panel, 3, 5);
    with_something_kept(panel)
}

/// The same at the writer: panel 1 of 5.
fn rich_writer() -> Panel {
    let mut panel = by_hand(2, 1, 1, &[6, 6, 4, 3, 5], &[3, 3, 1, 2, 0]);
    set_operation(&mut panel, 1, 0);
    with_something_kept(panel)
}

/// A held WRITE of panel 3, and waiting READs of panel 4.
fn with_something_kept(mut panel: Panel) -> Panel {
    set_held(&mut panel, 3, 71);
    set_line(&mut panel, 4, &[4, 4, 6]);
    assert!(panel.in_form());
    panel
}

fn check(panel: &Panel, change: impl Fn(&mut Panel), expected: bool) {
    let mut changed = panel.clone();
    change(&mut changed);
    assert_eq!(changed.in_form(), expected, "{changed:?}");
}

// "n, t and writer fit, i is in 1..n"
#[test]
fn sizes_and_number() {
    for (n, t, writer, number, fits) in [
        (5, 2, 1, 2, true),
        (5, 2, 5, 5, true),
        (5, 3, 1, 2, false),
        (5, 255, 1, 2, false),
        (5, 128, 1, 2, false),
        (5, 2, 0, 2, false),
        (5, 2, 6, 2, false),
        (5, 2, 1, 0, false),
        (5, 2, 1, 6, false),
        (5, 2, 1, 255, false),
        (8, 2, 1, 2, false),
        (0, 0, 0, 0, false),
        (255, 2, 1, 2, false),
        (1, 0, 1, 1, true),
        (7, 3, 7, 7, true),
    ] {
        let panel = Panel { n, t, writer, number, ..Panel::ZERO };
        assert_eq!(panel.in_form(), fits, "{n} {t} {writer} {number}");
    }
}

// "w[j] ≤ w[i] ≤ 200 and r[j] ≤ r[i] ≤ 100 for every j"
#[test]
fn numbers() {
    let full = |x: u8, y: u8| {
        let mut panel = by_hand(1, 1, 2, &[0; 3], &[0; 3]);
        panel.w[1].0 = x;
        panel.r[1].0 = y;
        panel.in_form()
    };
    assert!(full(200, 100));
    assert!(!full(201, 100) && !full(255, 100) && !full(200, 101) && !full(200, 255));
    for panel in [rich(), rich_writer()] {
        check(&panel, |p| p.w[4].0 = 6, true);
        check(&panel, |p| p.w[4].0 = 7, false);
        check(&panel, |p| p.r[4].0 = 3, true);
        check(&panel, |p| p.r[4].0 = 4, false);
    }
}

// "a held WRITE of j has w[j]+2 ≤ 200, and at the writer w[j]+2 ≤ w[i]"
#[test]
fn holds() {
    let held_at = |number: u8, own, known| {
        let mut w = [0, 0, known];
        w[usize::from(number) - 1] = own;
        let mut panel = by_hand(1, 1, number, &w, &[0; 3]);
        set_held(&mut panel, 3, 7);
        panel.in_form()
    };
    assert!(held_at(2, 200, 198) && !held_at(2, 200, 199) && !held_at(2, 200, 200));
    assert!(held_at(2, 5, 5), "elsewhere w[i] does not matter");
    assert!(held_at(1, 5, 3) && !held_at(1, 5, 4) && !held_at(1, 5, 5));
}

// "each line has at most 100 entries, not falling, each above w[j] and at most w[i]"
#[test]
fn lines() {
    for panel in [rich(), rich_writer()] {
        check(&panel, |p| set_line(p, 4, &[5; 100]), true);
        check(&panel, |p| p.lines[3] = Line { len: 101, sn: [WriteNumber(5); 100] }, false);
        check(&panel, |p| p.lines[3] = Line { len: 255, sn: [WriteNumber(5); 100] }, false);
        check(&panel, |p| set_line(p, 4, &[4, 5, 6]), true);
        check(&panel, |p| set_line(p, 4, &[5, 4, 6]), false);
        check(&panel, |p| set_line(p, 4, &[4, 6, 5]), false);
        check(&panel, |p| set_line(p, 4, &[3, 4, 6]), false);
        check(&panel, |p| set_line(p, 4, &[0, 4, 6]), false);
        check(&panel, |p| set_line(p, 4, &[4, 4, 7]), false);
    }
    // Where w[j] = w[i] no entry has room.
    check(&rich(), |p| set_line(p, 5, &[6]), false);
}

// "nothing is held or waiting for i itself"
#[test]
fn nothing_for_itself() {
    check(&rich(), |p| set_held(p, 2, 0), false);
    check(&rich(), |p| set_line(p, 2, &[6]), false);
    check(&rich_writer(), |p| set_held(p, 1, 0), false);
    check(&rich_writer(), |p| set_line(p, 1, &[6]), false);
}

// "writing only at the writer with w[i] ≥ 1; reading only with r[i] ≥ 1, and sn ≤ w[i]"
#[test]
fn operations() {
    let with = |number: u8, w: u8, r: u8, stage, sn| {
        let mut panel = by_hand(1, 1, number, &[w; 3], &[r; 3]);
        set_operation(&mut panel, stage, sn);
        panel.in_form()
    };
    assert!(with(1, 1, 0, 1, 0) && !with(1, 0, 0, 1, 0) && !with(2, 1, 0, 1, 0));
    assert!(with(2, 0, 1, 2, 0) && !with(2, 0, 0, 2, 0));
    assert!(with(2, 0, 1, 3, 0) && !with(2, 0, 0, 3, 0));
    assert!(with(1, 5, 1, 3, 5) && !with(1, 5, 1, 3, 6) && !with(1, 5, 1, 3, 255));
    assert!(!with(1, 5, 5, 4, 0) && !with(1, 5, 5, 255, 0));
}

// "places past n, past w[i], past a line's end, values of empty holds, and sn outside the second wait
// are zero"
#[test]
fn unused_places() {
    for panel in [rich(), rich_writer()] {
        for past in [5, 6] {
            check(&panel, |p| p.w[past].0 = 1, false);
            check(&panel, |p| p.r[past].0 = 1, false);
            check(&panel, |p| p.held[past].full = true, false);
            check(&panel, |p| p.held[past].value = 1, false);
            check(&panel, |p| p.lines[past].len = 1, false);
            check(&panel, |p| p.lines[past].sn[99].0 = 1, false);
        }
        check(&panel, |p| p.history[6] = 0, true);
        check(&panel, |p| p.history[7] = 1, false);
        check(&panel, |p| p.history[200] = 1, false);
        check(&panel, |p| p.lines[3].sn[3].0 = 6, false);
        check(&panel, |p| p.lines[3].sn[99].0 = 6, false);
        check(&panel, |p| p.lines[4].sn[0].0 = 6, false);
        check(&panel, |p| p.held[2].value = 0, true);
        check(&panel, |p| p.held[3].value = 1, false);
        for stage in 0..=2 {
            check(&panel, |p| p.operation = Operation { stage, sn: WriteNumber(1) }, false);
        }
    }
    check(&rich(), |p| set_operation(p, 2, 0), true);
    check(&rich_writer(), |p| set_operation(p, 0, 0), true);
}

/// Three panels in form with something in every table.
fn rich_network() -> Network {
    let mut network = three();
    for what in [Step::Write(1), Step::Deliver(WRITE1, 1, 2), Step::Read(3), Step::PowerLoss(1)] {
        takes(&mut network, what);
    }
    assert!(network.in_form());
    network
}

fn check_network(change: impl Fn(&mut Network), expected: bool) {
    let mut changed = rich_network();
    change(&mut changed);
    assert_eq!(changed.in_form(), expected, "{changed:?}");
}

// "A network is in form when its panels are, agree on n, t, writer and initial value, are numbered in
// order"
#[test]
fn panels_of_a_network() {
    check_network(|_| (), true);
    for k in 0..3 {
        check_network(|net| net.panels[k].history[2] = 5, false);
        check_network(|net| net.panels[k].n = 4, false);
        check_network(|net| net.panels[k].t = 0, false);
        check_network(|net| net.panels[k].writer = 3, false);
        check_network(|net| net.panels[k].history[0] = 701, false);
        check_network(|net| net.panels[k].number = 0, false);
    }
    check_network(|net| net.panels.swap(1, 2), false);
    check_network(|net| net.panels[2] = net.panels[1].clone(), false);
    check_network(|net| net.panels.iter_mut().take(3).for_each(|p| p.history[0] = 9), true);
}

// "at most t are down"
#[test]
fn power() {
    check_network(|net| net.down = [false; 7], true);
    check_network(|net| net.down[1] = true, false);
    check_network(|net| (net.down[0], net.down[2]) = (false, true), true);
}

// "each ordered pair has at most one WRITE of each bit and at most 100 READs and 100 PROCEEDs in flight"
#[test]
fn channels() {
    check_network(|net| net.channels[0][1].reads = 100, true);
    check_network(|net| net.channels[0][1].reads = 101, false);
    check_network(|net| net.channels[2][0].proceeds = 100, true);
    check_network(|net| net.channels[2][0].proceeds = 101, false);
    check_network(|net| net.channels[2][0].proceeds = 255, false);
    check_network(|net| net.channels[1][2].writes = [Slot { full: true, value: 3 }; 2], true);
}

// "no panel sends to itself, and everything unused is zero"
#[test]
fn unused_in_a_network() {
    for k in 0..7 {
        check_network(|net| net.channels[k][k].reads = 1, false);
        check_network(|net| net.channels[k][k].proceeds = 1, false);
        check_network(|net| net.channels[k][k].writes[0].full = true, false);
        check_network(|net| net.channels[k][k].writes[1].value = 1, false);
    }
    for past in 3..7 {
        check_network(|net| net.down[past] = true, false);
        check_network(|net| net.panels[past].n = 3, false);
        check_network(|net| net.panels[past].history[0] = 700, false);
        check_network(|net| net.panels[past] = net.panels[2].clone(), false);
        check_network(|net| net.channels[past][0].reads = 1, false);
        check_network(|net| net.channels[0][past].writes[1].value = 1, false);
    }
    check_network(|net| net.channels[2][0].writes[0].value = 1, false);
    check_network(|net| net.channels[2][0].writes[0] = Slot { full: true, value: 1 }, true);
}

// "A panel is **in form** when": exactly when no clause is broken, on panels of every make; and each
// clause alone makes a panel not in form.
#[test]
fn panels_against_the_clauses() {
    let mut random = Random::new(11);
    for seed in 0..4000 {
        let panel = generate::panel(seed);
        assert_eq!(panel.in_form(), broken_in_panel(&panel).is_empty(), "seed {seed}");
    }
    for clause in PanelClause::ALL {
        for _ in 0..40 {
            let panel = generate::panel_broken(&mut random, clause);
            assert_eq!(broken_in_panel(&panel), [clause]);
            assert!(!panel.in_form(), "{clause:?}");
        }
    }
}

// "A network is in form when": the same for networks.
#[test]
fn networks_against_the_clauses() {
    let mut random = Random::new(12);
    for seed in 0..2000 {
        let network = generate::network(seed);
        assert_eq!(network.in_form(), broken_in_network(&network).is_empty(), "seed {seed}");
    }
    let of_panels = PanelClause::ALL.map(NetworkClause::PanelInForm);
    for clause in NetworkClause::OWN.into_iter().chain(of_panels) {
        for _ in 0..10 {
            let network = generate::network_broken(&mut random, clause);
            let mut broken = broken_in_network(&network);
            if clause == NetworkClause::PanelInForm(PanelClause::NumberInRange) {
                broken.retain(|&other| other != NetworkClause::NumberedInOrder);
            }
            assert_eq!(broken, [clause]);
            assert!(!network.in_form(), "{clause:?}");
        }
    }
}
