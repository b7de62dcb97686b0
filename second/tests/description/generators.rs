//! The generators reach what they are made for.

use crate::clauses::{broken_in_network, broken_in_panel};
use crate::common::*;
use second::generate_schedules::{schedule, style, Style};
use second::generate_tables as generate;
use second::network::{Delivery, Network};
use second::random::Random;
use second::schedule::{Reader, Record};
use std::collections::{BTreeSet, HashMap};

fn answers(schedule: &[u8]) -> Vec<u8> {
    let text = listing_text(schedule);
    text.lines().skip(1).map(|line| line.split(' ').nth(4).unwrap().parse().unwrap()).collect()
}

fn with_style(wanted: Style, count: usize) -> Vec<Vec<u8>> {
    (0..).filter(|&seed| style(seed) == wanted).take(count).map(schedule).collect()
}

/// Runs a schedule's records and shows each network on the way.
fn replay(schedule: &[u8], mut show: impl FnMut(&Network)) {
    let mut reader = Reader::new(schedule);
    let Ok(Record::SetUp { n, t, writer, initial }) = reader.next_record() else {
        return;
    };
    let Ok(mut network) = Network::set_up(n, t, writer, initial) else {
        return;
    };
    while let Ok(record) = reader.next_record() {
        let what = match record {
            Record::SetUp { .. } => continue,
            Record::Write { value } => Step::Write(value),
            Record::Read { panel } => Step::Read(panel),
            Record::Deliver(Delivery { kind, sender, receiver }) => {
                Step::Deliver(kind, sender, receiver)
            }
            Record::PowerLoss { panel } => Step::PowerLoss(panel),
            Record::Drain => Step::Drain,
        };
        if step(&mut network, what).is_ok() {
            show(&network);
        }
    }
}

/// What is counted of networks on the way.
#[derive(Default)]
struct Found {
    held: usize,
    waiting: usize,
    down: usize,
}

impl Found {
    fn add(&mut self, network: &Network) {
        let panels = &network.panels;
        self.held += panels.iter().flat_map(|p| p.held).filter(|held| held.full).count();
        self.waiting += panels.iter().flat_map(|p| p.lines).filter(|line| line.len > 0).count();
        self.down += network.down.iter().filter(|&&down| down).count();
    }
}

#[test]
fn the_same_seed_gives_the_same() {
    for seed in 0..32 {
        assert_eq!(schedule(seed), schedule(seed));
        assert_eq!(generate::panel(seed), generate::panel(seed));
        assert_eq!(generate::network(seed), generate::network(seed));
    }
    // The first numbers of splitmix64 from seed 0, as published with it.
    let mut random = Random::new(0);
    let first = [0xE220_A839_7B1D_CDAF, 0x6E78_9E6A_A1B9_65F4, 0x06C4_5D18_8009_454F];
    assert_eq!([(); 3].map(|()| random.bits()), first);
}

// "Given exactly when": the numbers that a schedule can meet from fresh.
#[test]
fn schedules_meet_every_refusal_they_can() {
    let mut schedules = Met::new();
    for seed in 0..800 {
        for number in answers(&schedule(seed)).into_iter().collect::<BTreeSet<u8>>() {
            *schedules.entry(number).or_default() += 1;
        }
    }
    assert_met(&schedules, &[0, 1, 4, 5, 7, 8, 9, 10, 15, 16, 17], 5);
}

#[test]
fn runs_are_of_all_sizes_and_rich() {
    let (mut sizes, mut stages, mut two_writes) = (BTreeSet::new(), BTreeSet::new(), 0);
    let (mut found, mut accepted, mut lines) = (Found::default(), 0, 0);
    for schedule in with_style(Style::Run, 1500) {
        sizes.insert((schedule[1], schedule[2], schedule[3]));
    }
    for schedule in with_style(Style::Run, 60) {
        let answers = answers(&schedule);
        lines += answers.len();
        accepted += answers.iter().filter(|&&number| number == 0).count();
        replay(&schedule, |network| {
            stages.extend(network.panels.iter().map(|panel| panel.operation.stage));
            found.add(network);
            let channels = network.channels.iter().flatten();
            two_writes += channels.filter(|c| c.writes[0].full && c.writes[1].full).count();
        });
    }
    assert_eq!(sizes.len(), 78, "all n with all t and writers that fit");
    assert_eq!(stages.into_iter().collect::<Vec<_>>(), [0, 1, 2, 3]);
    assert!(found.held > 500 && found.waiting > 500 && found.down > 500 && two_writes > 500);
    assert!(accepted * 10 > lines * 6, "{accepted} of {lines} accepted");
}

#[test]
fn used_up_ones_use_everything_up() {
    for schedule in with_style(Style::UsedUp, 6) {
        let n = schedule[1];
        let mut last = Network::ZERO;
        replay(&schedule, |network| last = network.clone());
        for panel in &last.panels[..n.into()] {
            assert_eq!(panel.r[usize::from(panel.number) - 1].0, 100);
            assert_eq!(panel.w[usize::from(panel.number) - 1].0, 200);
        }
        // One write and a read of each panel are refused 8 at the end.
        let end = answers(&schedule);
        assert_eq!(end[end.len() - 1 - usize::from(n)..], vec![8; 1 + usize::from(n)]);
    }
}

#[test]
fn widest_ones_send_100_proceeds_at_once() {
    let mut reached = BTreeSet::new();
    for schedule in with_style(Style::Widest, 40) {
        let mut before = 0;
        replay(&schedule, |network| {
            let proceeds = network.channels.iter().flatten().map(|c| c.proceeds).max().unwrap();
            if before == 0 && proceeds == 100 {
                reached.insert(schedule[1]);
            }
            before = proceeds;
        });
    }
    assert_eq!(reached.into_iter().collect::<Vec<_>>(), [3, 4, 5, 6, 7]);
}

#[test]
fn lengths_of_long_and_cut_ones() {
    assert!(with_style(Style::Longest, 8).iter().all(|schedule| schedule.len() == 65_536));
    assert!(with_style(Style::TooLong, 8).iter().all(|schedule| schedule.len() == 65_537));
    for schedule in with_style(Style::Longest, 8) {
        let answers = answers(&schedule);
        assert!(answers.len() > 5000 && answers.last() == Some(&0));
    }
    let cut = with_style(Style::Cut, 60);
    let short = cut.iter().filter(|schedule| answers(schedule).last() == Some(&16)).count();
    assert!(short > 15, "{short} of 60 end in a body cut short");
    let damaged = with_style(Style::Damaged, 100);
    let long = damaged.iter().filter(|schedule| answers(schedule).len() > 20).count();
    assert!(long > 30, "{long} of 100 go on past the damage for a while");
}

#[test]
fn first_records_end_the_listing() {
    let mut seen: HashMap<Option<u8>, usize> = HashMap::new();
    for schedule in with_style(Style::FirstRecord, 100) {
        let answers = answers(&schedule);
        assert!(answers.len() <= 1);
        *seen.entry(answers.first().copied()).or_default() += 1;
    }
    for answer in [None, Some(1), Some(15), Some(16), Some(17)] {
        assert!(seen.get(&answer).is_some_and(|&times| times >= 3), "{answer:?}: {seen:?}");
    }
}

// "A panel is **in form** when": those said to be are, by the clauses, and have much in them.
#[test]
fn panels_in_form_are_rich() {
    let mut random = Random::new(31);
    let (mut stages, mut held, mut full_lines, mut near_lines) = ([0; 4], 0, 0, 0);
    let (mut last_write, mut last_read, mut of_writer) = (0, 0, 0);
    for _ in 0..2000 {
        let panel = generate::panel_in_form(&mut random);
        assert_eq!(broken_in_panel(&panel), []);
        let own = usize::from(panel.number) - 1;
        stages[usize::from(panel.operation.stage)] += 1;
        held += panel.held.iter().filter(|held| held.full).count();
        full_lines += panel.lines.iter().filter(|line| line.len == 100).count();
        near_lines += panel.lines.iter().filter(|line| line.len == 99).count();
        last_write += usize::from(panel.w[own].0 >= 199);
        last_read += usize::from(panel.r[own].0 >= 99);
        of_writer += usize::from(panel.number == panel.writer);
    }
    assert!(stages.iter().all(|&times| times > 50), "{stages:?}");
    assert!(held > 500 && full_lines > 100 && near_lines > 100);
    assert!(last_write > 100 && last_read > 100 && of_writer > 500);
}

// "A network is in form when": the same for networks, by hand and out of runs.
#[test]
fn networks_in_form_are_rich() {
    let mut random = Random::new(32);
    let (mut messages, mut found) = ([0; 4], Found::default());
    for _ in 0..400 {
        for network in
            [generate::network_in_form(&mut random), generate::network_by_hand(&mut random)]
        {
            assert_eq!(broken_in_network(&network), []);
            for message in network.in_flight() {
                messages[usize::from(message.kind)] += 1;
            }
            found.add(&network);
        }
    }
    assert!(messages.iter().all(|&times| times > 500), "{messages:?}");
    assert!(found.held > 500 && found.waiting > 500 && found.down > 100);
}

// Panels and networks by seed are in form about as often as not; the broken ones are in `form`.
#[test]
fn tables_by_seed_are_of_both_sorts() {
    let panels =
        (0..2000).filter(|&seed| broken_in_panel(&generate::panel(seed)).is_empty()).count();
    assert!((700..1300).contains(&panels), "{panels} of 2000 panels");
    let networks = (0..600).filter(|&seed| broken_in_network(&generate::network(seed)).is_empty());
    let networks = networks.count();
    assert!((200..400).contains(&networks), "{networks} of 600 networks");
}
