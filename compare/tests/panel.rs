//! A lone panel: the proved calls and the second program agree, in result, tables and message area.

use compare::both::{any_number, number_and_tables, panel_by_hand, set_ups, small_numbers};
use compare::panel::{happen, in_form, set_up, Answer, Area, Event, Outcome};
use compare::seeds::{assert_met, count, over_seeds, Seen};
use second::panel::{Finish, Panel, WriteNumber};
use second::random::Random;
use second::refusal::Refusal;
use second::tables::{panel_from_bytes, panel_to_bytes};

fn happen_in_second(panel: &mut Panel, event: Event, area: &mut Area) -> Outcome {
    let Area { receivers, kinds, values } = area;
    let reply = match event {
        Event::Write(v) => panel.write(v, receivers, kinds, values),
        Event::Read => panel.read(receivers, kinds, values),
        Event::WriteFrom(j, odd, v) => panel.write_from(j, odd, v, receivers, kinds, values),
        Event::ReadFrom(j) => panel.read_from(j, receivers, kinds, values),
        Event::ProceedFrom(j) => panel.proceed_from(j, receivers, kinds, values),
    };
    Outcome {
        tables: panel_to_bytes(panel),
        answer: reply.map(|reply| reply.finish).map_err(Refusal::number),
        messages: reply.map_or(0, |reply| reply.messages),
    }
}

/// The outcome, once both gave it, and left the same area.
fn alike(panel: &Panel, event: Event, area: &Area) -> Outcome {
    let (mut first_area, mut second_area) = (area.clone(), area.clone());
    let first = happen(&panel_to_bytes(panel), event, &mut first_area);
    let second = happen_in_second(&mut panel.clone(), event, &mut second_area);
    assert!(first == second, "{event:?} at {panel:?}: {first:?} and {second:?}");
    assert!(first_area == second_area, "{event:?} at {panel:?}: areas differ");
    first
}

/// Of 0 to 200 places, the three slices of different lengths; mostly with room enough.
fn any_area(random: &mut Random) -> Area {
    let mut lengths = [(); 3].map(|()| 107 + random.below(94));
    match random.below(16) {
        0 => lengths = [(); 3].map(|()| random.below(201)),
        1 => lengths[random.below(3)] = random.below(107),
        2 => lengths[random.below(3)] = 106,
        _ => {}
    }
    let mut area = area_of(lengths);
    random.fill(&mut area.receivers);
    random.fill(&mut area.kinds);
    area.values.fill_with(|| random.value());
    area
}

fn area_of([receivers, kinds, values]: [usize; 3]) -> Area {
    Area { receivers: vec![0xEE; receivers], kinds: vec![0xEE; kinds], values: vec![7; values] }
}

fn every_event(random: &mut Random, n: u8) -> [Event; 5] {
    [
        Event::Write(random.value()),
        Event::Read,
        Event::WriteFrom(any_number(random, n), random.one_in(2), random.value()),
        Event::ReadFrom(any_number(random, n)),
        Event::ProceedFrom(any_number(random, n)),
    ]
}

fn case_of(answer: Answer) -> (&'static str, u8) {
    match answer {
        Err(number) => ("refused", number),
        Ok(Finish::Nothing) => ("nothing", 0),
        Ok(Finish::Write(_)) => ("wrote", 0),
        Ok(Finish::Read(..)) => ("gave", 0),
    }
}

fn every_call(seed: u64, seen: &mut Seen) {
    let panel = panel_by_hand(seed);
    let random = &mut Random::new(seed ^ 0x5EED);
    let form = in_form(&panel_to_bytes(&panel));
    assert_eq!(form, panel.in_form(), "seed {seed}: {panel:?}");
    count(seen, "in form", u8::from(!form));
    for event in every_event(random, panel.n) {
        let (case, number) = case_of(alike(&panel, event, &any_area(random)).answer);
        count(seen, case, number);
    }
}

/// Every call on each of 250,000 tables made by hand, in form and not.
#[test]
fn every_call_on_tables_made_by_hand() {
    let tables = 250_000;
    println!("{tables} tables by hand, seeds 0 on");
    let seen = over_seeds(0..tables, every_call);
    println!("{} calls: {seen:?}", seen.values().sum::<usize>());
    assert_met(&seen, "in form", &[0, 1]);
    assert_met(&seen, "refused", &[2, 3, 4, 6, 7, 8, 11, 12, 13]);
    for case in ["nothing", "wrote", "gave"] {
        assert_met(&seen, case, &[0]);
    }
}

/// Tables as bytes stay what they are: what is refused gives them back.
#[test]
fn tables_come_back_as_they_went() {
    for seed in 0..20_000 {
        let panel = panel_by_hand(seed);
        let outcome = alike(&panel, Event::Read, &area_of([0, 0, 0]));
        assert_eq!(outcome.tables, panel_to_bytes(&panel), "seed {seed}");
        assert_eq!(panel_to_bytes(&panel_from_bytes(&outcome.tables)), outcome.tables);
    }
}

#[test]
fn set_up_on_all_small_numbers() {
    let mut made = 0;
    for (n, t, writer, initial) in set_ups() {
        for number in small_numbers() {
            let first = set_up(n, t, writer, number, initial);
            let panel = Panel::set_up(n, t, writer, number, initial);
            let (refusal, panel) = number_and_tables(panel, Panel::ZERO);
            let second = (refusal, panel_to_bytes(&panel));
            assert!(first == second, "n {n} t {t} writer {writer} number {number}");
            made += usize::from(first.0 == 0);
        }
    }
    println!("{made} panels were made");
    assert!(made > 0);
}

#[test]
fn n_0_and_n_8_are_refused_1() {
    assert_eq!(set_up(0, 0, 1, 1, 5).0, 1);
    assert_eq!(set_up(8, 0, 1, 1, 5).0, 1);
    assert_eq!(set_up(1, 0, 1, 1, 5).0, 0);
    assert_eq!(set_up(7, 0, 1, 1, 5).0, 0);
}

#[test]
fn writer_0_and_writer_past_n_are_refused_1() {
    for n in 1..=7 {
        assert_eq!(set_up(n, 0, 0, 1, 5).0, 1);
        assert_eq!(set_up(n, 0, n + 1, 1, 5).0, 1);
        assert_eq!(set_up(n, 0, n, 1, 5).0, 0);
    }
}

fn fresh(n: u8, t: u8, writer: u8, number: u8) -> Panel {
    let (refusal, tables) = set_up(n, t, writer, number, 18);
    assert_eq!(refusal, 0);
    panel_from_bytes(&tables)
}

/// A lone writer finishes every write at once.
#[test]
fn write_200_is_taken_and_201_is_refused_8() {
    let area = area_of([107; 3]);
    let mut panel = fresh(1, 0, 1, 1);
    for x in 1..=200 {
        let outcome = alike(&panel, Event::Write(1000 + u32::from(x)), &area);
        assert_eq!(outcome.answer, Ok(Finish::Write(WriteNumber(x))));
        panel = panel_from_bytes(&outcome.tables);
    }
    assert_eq!(alike(&panel, Event::Write(1), &area).answer, Err(8));
    let read = Finish::Read(WriteNumber(200), 1200);
    assert_eq!(alike(&panel, Event::Read, &area).answer, Ok(read));
}

#[test]
fn read_100_is_taken_and_101_is_refused_8() {
    let area = area_of([107; 3]);
    let mut panel = fresh(1, 0, 1, 1);
    for _ in 1..=100 {
        let outcome = alike(&panel, Event::Read, &area);
        assert_eq!(outcome.answer, Ok(Finish::Read(WriteNumber(0), 18)));
        panel = panel_from_bytes(&outcome.tables);
    }
    assert_eq!(alike(&panel, Event::Read, &area).answer, Err(8));
}

/// Each event at a panel that accepts it: 107 places are enough, and 106 in any one slice are not.
#[test]
fn an_area_of_107_is_taken_and_of_106_refused_3_by_every_event() {
    let writer = fresh(3, 1, 1, 1);
    let peer = fresh(3, 1, 1, 2);
    let enough = area_of([107; 3]);
    let reading = panel_from_bytes(&alike(&peer, Event::Read, &enough).tables);
    let accepted = [
        (&writer, Event::Write(7)),
        (&peer, Event::Read),
        (&peer, Event::WriteFrom(1, true, 7)),
        (&peer, Event::ReadFrom(3)),
        (&reading, Event::ProceedFrom(3)),
    ];
    for (panel, event) in accepted {
        let taken = alike(panel, event, &enough);
        assert!(taken.answer.is_ok(), "{event:?}: {:?}", taken.answer);
        for short in [[106; 3], [106, 107, 107], [107, 106, 107], [107, 107, 106], [0; 3]] {
            let outcome = alike(panel, event, &area_of(short));
            assert_eq!(outcome.answer, Err(3), "{event:?} with {short:?}");
            assert_eq!(outcome.tables, panel_to_bytes(panel));
        }
    }
}
