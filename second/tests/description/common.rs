//! Events and steps as the tests give them. Whatever is refused is checked here to change nothing, and
//! whatever is accepted to leave the lent area alone behind its last message.

use second::listing::listing;
use second::network::Network;
use second::panel::{Finish, Panel, Reply, WriteNumber};
use second::refusal::Refusal;
use std::collections::BTreeMap;

/// Wire kinds as numbers of the description, so that a wrong constant in the program is noticed.
pub const WRITE0: u8 = 0;
pub const WRITE1: u8 = 1;
pub const READ: u8 = 2;
pub const PROCEED: u8 = 3;

/// A receiver, a kind and a value.
pub type Sent = (u8, u8, u32);

#[derive(Clone, Copy, PartialEq, Debug)]
pub enum Event {
    Write(u32),
    Read,
    /// A kind, a sender and a value.
    Deliver(u8, u8, u32),
}

/// A lent message area, filled so that a touched place is seen.
#[derive(Clone, PartialEq, Debug)]
pub struct Lent {
    pub receivers: Vec<u8>,
    pub kinds: Vec<u8>,
    pub values: Vec<u32>,
}

impl Lent {
    pub fn new(receivers: usize, kinds: usize, values: usize) -> Lent {
        Lent {
            receivers: vec![0xA5; receivers],
            kinds: vec![0x5A; kinds],
            values: vec![0xDEAD_BEEF; values],
        }
    }

    fn give(&mut self, panel: &mut Panel, event: Event) -> Result<Reply, Refusal> {
        let Lent { receivers, kinds, values } = self;
        match event {
            Event::Write(v) => panel.write(v, receivers, kinds, values),
            Event::Read => panel.read(receivers, kinds, values),
            Event::Deliver(kind, j, v) => panel.deliver(kind, j, v, receivers, kinds, values),
        }
    }
}

/// An event in an area of the lengths given: the result and the messages, or the number of the refusal.
pub fn try_in(
    panel: &mut Panel,
    event: Event,
    lengths: [usize; 3],
) -> Result<(Finish, Vec<Sent>), u8> {
    let fresh = Lent::new(lengths[0], lengths[1], lengths[2]);
    let (mut lent, before) = (fresh.clone(), panel.clone());
    match lent.give(panel, event) {
        Ok(reply) => {
            let count = reply.messages;
            assert_eq!(lent.receivers[count..], fresh.receivers[count..], "past the last message");
            assert_eq!(lent.kinds[count..], fresh.kinds[count..], "past the last message");
            assert_eq!(lent.values[count..], fresh.values[count..], "past the last message");
            let sent = |k: usize| (lent.receivers[k], lent.kinds[k], lent.values[k]);
            Ok((reply.finish, (0..count).map(sent).collect()))
        }
        Err(refusal) => {
            assert_eq!(*panel, before, "a refusal alters no table");
            assert_eq!(lent, fresh, "a refusal alters no buffer");
            Err(refusal.number())
        }
    }
}

pub fn attempt(panel: &mut Panel, event: Event) -> Result<(Finish, Vec<Sent>), u8> {
    try_in(panel, event, [107, 107, 107])
}

pub fn accepted(panel: &mut Panel, event: Event) -> (Finish, Vec<Sent>) {
    attempt(panel, event).unwrap_or_else(|number| panic!("{event:?} refused {number}"))
}

/// On a copy: refused or not, the panel given is as before.
pub fn refusal(panel: &Panel, event: Event) -> Option<u8> {
    attempt(&mut panel.clone(), event).err()
}

#[derive(Clone, Copy, PartialEq, Debug)]
pub enum Step {
    Write(u32),
    Read(u8),
    /// A kind, a sender and a receiver.
    Deliver(u8, u8, u8),
    PowerLoss(u8),
    Drain,
}

#[derive(Clone, Copy, PartialEq, Debug)]
pub enum Answer {
    Done(Finish),
    PowerLost,
    Drained(u32),
}

/// A step, or the number of its refusal.
pub fn step(network: &mut Network, step: Step) -> Result<Answer, u8> {
    let before = network.clone();
    let answer = match step {
        Step::Write(v) => network.write(v).map(Answer::Done),
        Step::Read(panel) => network.read(panel).map(Answer::Done),
        Step::Deliver(kind, sender, receiver) => {
            network.deliver(kind, sender, receiver).map(Answer::Done)
        }
        Step::PowerLoss(panel) => network.power_loss(panel).map(|()| Answer::PowerLost),
        Step::Drain => network.drain().map(Answer::Drained),
    };
    if answer.is_err() {
        assert_eq!(*network, before, "a refusal alters no table and no channel");
    }
    answer.map_err(Refusal::number)
}

pub fn takes(network: &mut Network, what: Step) -> Answer {
    step(network, what).unwrap_or_else(|number| panic!("{what:?} refused {number}"))
}

/// On a copy: refused or not, the network given is as before.
pub fn step_refusal(network: &Network, what: Step) -> Option<u8> {
    step(&mut network.clone(), what).err()
}

pub const NOTHING: Answer = Answer::Done(Finish::Nothing);

pub fn wrote(number: u8) -> Finish {
    Finish::Write(WriteNumber(number))
}

pub fn read(number: u8, value: u32) -> Finish {
    Finish::Read(WriteNumber(number), value)
}

/// What is in flight, in the order of sender, receiver and kind, as often as it is there.
pub fn messages(network: &Network) -> Vec<(u8, u8, u8)> {
    let mut found = Vec::new();
    for sender in 1..=7u8 {
        for receiver in 1..=7u8 {
            let channel = &network.channels[usize::from(sender) - 1][usize::from(receiver) - 1];
            let [zero, one] = channel.writes.map(|slot| u8::from(slot.full));
            for (kind, times) in (0..).zip([zero, one, channel.reads, channel.proceeds]) {
                found.extend((0..times).map(|_| (kind, sender, receiver)));
            }
        }
    }
    found
}

/// A fresh network of three panels, t=1, writer 1, as in "Both sides of each line".
pub fn three() -> Network {
    Network::set_up(3, 1, 1, 700).expect("three panels")
}

/// A fresh panel of three, t=1, writer 1.
pub fn of_three(number: u8) -> Panel {
    Panel::set_up(3, 1, 1, number, 700).expect("one of three panels")
}

/// A panel by hand: own number, write numbers and read numbers of its n panels, and a history that is
/// 1000 plus the write number.
pub fn by_hand(t: u8, writer: u8, number: u8, w: &[u8], r: &[u8]) -> Panel {
    let mut panel = Panel::set_up(w.len() as u8, t, writer, number, 1000).expect("sizes that fit");
    for (j, (&w, &r)) in w.iter().zip(r).enumerate() {
        panel.w[j].0 = w;
        panel.r[j].0 = r;
    }
    for x in 1..=w[usize::from(number) - 1] {
        panel.history[usize::from(x)] = 1000 + u32::from(x);
    }
    panel
}

/// A network of n panels made by hand, writer 1, all with the write and read numbers given.
pub fn all_at(n: u8, t: u8, w: u8, r: u8) -> Network {
    let mut network = Network::set_up(n, t, 1, 1000).unwrap();
    for number in 1..=n {
        let (w, r) = (vec![w; n.into()], vec![r; n.into()]);
        network.panels[usize::from(number) - 1] = by_hand(t, 1, number, &w, &r);
    }
    assert!(network.in_form());
    network
}

/// A line of waiting READs.
pub fn set_line(panel: &mut Panel, j: u8, sn: &[u8]) {
    let line = &mut panel.lines[usize::from(j) - 1];
    line.len = sn.len() as u8;
    for (place, &x) in line.sn.iter_mut().zip(sn) {
        place.0 = x;
    }
}

pub fn line(panel: &Panel, j: u8) -> Vec<u8> {
    let line = &panel.lines[usize::from(j) - 1];
    line.sn[..usize::from(line.len)].iter().map(|x| x.0).collect()
}

pub fn set_held(panel: &mut Panel, j: u8, value: u32) {
    let held = &mut panel.held[usize::from(j) - 1];
    (held.full, held.value) = (true, value);
}

pub fn set_operation(panel: &mut Panel, stage: u8, sn: u8) {
    (panel.operation.stage, panel.operation.sn.0) = (stage, sn);
}

/// The stage and its sn.
pub fn operation(panel: &Panel) -> (u8, u8) {
    (panel.operation.stage, panel.operation.sn.0)
}

/// A set-up, and drains behind it up to this length.
pub fn drains(set_up: [u8; 8], length: usize) -> Vec<u8> {
    let mut schedule = set_up.to_vec();
    schedule.resize(length, 8);
    schedule
}

pub fn listing_text(schedule: &[u8]) -> String {
    String::from_utf8(listing(schedule)).expect("plain text")
}

/// How often each answer was met: 0 where something was accepted, else the number of the refusal.
pub type Met = BTreeMap<u8, usize>;

/// Each of these numbers was met at least so often, and no other at all.
pub fn assert_met(met: &Met, numbers: &[u8], least: usize) {
    assert_eq!(met.keys().copied().collect::<Vec<_>>(), numbers, "{met:?}");
    assert!(met.values().all(|&times| times >= least), "{met:?}");
}
