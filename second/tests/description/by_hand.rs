//! Tables made by hand: what holds of any panel and any network, in form or not.

use crate::common::*;
use second::generate_tables as generate;
use second::network::{Delivery, Network};
use second::panel::{Finish, Panel};
use second::random::Random;

/// Events with numbers that are mostly within the panel's n.
fn some_event(random: &mut Random) -> Event {
    let sender = if random.one_in(8) { random.byte() } else { random.between(1, 7) };
    let kind = if random.one_in(20) { random.byte() } else { random.between(0, 3) };
    match random.below(6) {
        0 => Event::Write(random.value()),
        1 => Event::Read,
        _ => Event::Deliver(kind, sender, random.value()),
    }
}

fn some_step(random: &mut Random, network: &Network) -> Step {
    let any = |random: &mut Random| {
        if random.one_in(12) {
            random.byte()
        } else {
            random.between(1, network.panels[0].n.clamp(1, 7))
        }
    };
    let in_flight = network.in_flight();
    match random.below(12) {
        0 => Step::Write(random.value()),
        1 => Step::Read(any(random)),
        2 => Step::PowerLoss(any(random)),
        3 => Step::Drain,
        4 => Step::Deliver(random.between(0, 4), any(random), any(random)),
        _ if in_flight.is_empty() => Step::Read(any(random)),
        _ => {
            let message = random.pick(&in_flight);
            Step::Deliver(message.kind, message.sender, message.receiver)
        }
    }
}

/// "those of the event's own rule, receivers rising; those of the held WRITE; PROCEEDs", and no message
/// to the panel itself.
fn messages_stand_in_order(panel: &Panel, event: Event, sent: &[Sent]) {
    assert!(sent.len() <= 106);
    for &(receiver, kind, value) in sent {
        assert!((1..=panel.n).contains(&receiver) && receiver != panel.number);
        assert!(kind <= 1 || value == 0);
    }
    let writes = sent.iter().take_while(|(_, kind, _)| *kind <= 1).count();
    let (writes, others) = sent.split_at(writes);
    let falls = writes.windows(2).filter(|pair| pair[0].0 >= pair[1].0).count();
    assert!(falls <= 1, "at most two rules send WRITEs");
    match event {
        Event::Write(v) => {
            assert!(writes.iter().all(|m| m.2 == v) && falls == 0 && others.is_empty());
        }
        Event::Read => {
            let everyone = (1..=panel.n).filter(|&j| j != panel.number).map(|j| (j, READ, 0));
            assert_eq!(sent, everyone.collect::<Vec<_>>());
        }
        Event::Deliver(_, j, _) => assert!(others.iter().all(|&m| m == (j, PROCEED, 0))),
    }
}

fn finish_is_true(before: &Panel, after: &Panel, finish: Finish) {
    match finish {
        Finish::Nothing => return,
        Finish::Write(number) => {
            assert_eq!(number, after.w[usize::from(after.number) - 1]);
            assert_eq!(after.number, before.writer);
        }
        Finish::Read(number, value) => assert_eq!(value, after.history[usize::from(number.0)]),
    }
    assert_eq!(operation(after), (0, 0));
}

// "Every accepted step keeps this": events at any panels. Refused: 2 exactly when not in form.
#[test]
fn events_at_any_panel() {
    let mut random = Random::new(21);
    let mut met = Met::new();
    for seed in 0..20_000 {
        let mut panel = generate::panel(seed);
        let (event, before) = (some_event(&mut random), panel.clone());
        let in_form = panel.in_form();
        match attempt(&mut panel, event) {
            Ok((finish, sent)) => {
                assert!(in_form && panel.in_form(), "seed {seed}, {event:?}");
                messages_stand_in_order(&panel, event, &sent);
                finish_is_true(&before, &panel, finish);
                *met.entry(0).or_default() += 1;
            }
            Err(number) => {
                assert_eq!(number == 2, !in_form, "seed {seed}, {event:?}");
                *met.entry(number).or_default() += 1;
            }
        }
    }
    assert_met(&met, &[0, 2, 4, 6, 7, 8, 11, 12, 13, 15], 20);
}

// "Every accepted step keeps this": steps of any networks.
#[test]
fn steps_of_any_network() {
    let mut random = Random::new(22);
    let mut met = Met::new();
    for seed in 0..1500 {
        let mut network = generate::network(seed);
        for _ in 0..20 {
            let (what, in_form) = (some_step(&mut random, &network), network.in_form());
            let answer = step(&mut network, what);
            let number = answer.err().unwrap_or(0);
            *met.entry(number).or_default() += 1;
            assert_eq!(number == 2, !in_form, "seed {seed}, {what:?}");
            if number == 2 {
                break;
            }
            assert!(network.in_form(), "seed {seed}, {what:?}");
        }
    }
    assert_met(&met, &[0, 2, 4, 5, 7, 8, 9, 10, 11, 12, 13, 14], 20);
}

/// A drain begins no operation. In one ordered pair a WRITE delivered either lets w[j] grow, at most to
/// 200, or is held, and a held one lets it grow later without a delivery: at most 201. READs are the 100
/// in flight; PROCEEDs the 100 in flight, the 100 waiting and the answers to those READs: 300.
const MOST_IN_A_DRAIN: u32 = 42 * (201 + 100 + 300);

// "A drain delivers the first message in flight to a live panel, ..., and repeats until there is none.
// Its answer counts its deliveries. If a delivery within it is refused, the whole drain is refused with
// that number." One delivery at a time gives the same.
#[test]
fn drains_end_and_are_their_deliveries() {
    let (mut random, mut drained, mut refused) = (Random::new(23), 0, 0);
    for _ in 0..400 {
        let network = generate::network_in_form(&mut random);
        let (mut whole, mut single, mut count) = (network.clone(), network, 0);
        let answer = step(&mut whole, Step::Drain);
        let ended = loop {
            let Some(Delivery { kind, sender, receiver }) = single.next_delivery().unwrap() else {
                break Ok(Answer::Drained(count));
            };
            if let Err(number) = step(&mut single, Step::Deliver(kind, sender, receiver)) {
                break Err(number);
            }
            count += 1;
            assert!(count <= MOST_IN_A_DRAIN);
        };
        assert_eq!(answer, ended);
        if ended.is_ok() {
            assert_eq!(whole, single);
            drained += usize::from(count > 0);
        } else {
            refused += usize::from(count > 0);
        }
    }
    assert!(drained > 40 && refused > 40, "{drained} drained, {refused} refused after a delivery");
}
