//! Writes a schedule while running the network beside it, so that deliveries mostly name messages in
//! flight. Some pairs are slow: their WRITEs are mostly passed over, which makes panels lag behind,
//! WRITEs overtake each other and READs wait.

use crate::listing::LONGEST;
use crate::network::{Delivery, Network};
use crate::panel::place;
use crate::random::Random;
use crate::schedule::Record;
use crate::wire::{READ, WRITE0, WRITE1};
use crate::{PANELS, READS, WRITES};

pub(crate) struct Driver {
    pub(crate) random: Random,
    pub(crate) network: Network,
    pub(crate) schedule: Vec<u8>,
    slow: [[bool; PANELS]; PANELS],
    mood: Mood,
}

/// A step and how often it is taken.
type Choice = (usize, fn(&mut Driver));

/// How often each kind of step is taken, out of their sum.
struct Mood {
    write: usize,
    read: usize,
    deliver: usize,
    refused: usize,
    power_loss: usize,
    drain: usize,
}

impl Mood {
    fn new(random: &mut Random) -> Mood {
        Mood {
            write: random.pick(&[2, 5, 10]),
            read: random.pick(&[1, 5, 20]),
            deliver: random.pick(&[20, 60, 200]),
            refused: random.pick(&[0, 2, 10]),
            power_loss: random.pick(&[0, 1]),
            drain: random.pick(&[0, 0, 1]),
        }
    }
}

impl Driver {
    /// Of any sizes that fit.
    pub(crate) fn fresh(mut random: Random) -> Driver {
        let (n, t, writer) = random.sizes();
        let initial = random.value();
        let network = Network::set_up(n, t, writer, initial).expect("sizes that fit");
        let mut schedule = Vec::new();
        Record::SetUp { n, t, writer, initial }.push(&mut schedule);
        let among = random.pick(&[2, 4, 1000]);
        let slow = [(); PANELS].map(|()| [(); PANELS].map(|()| random.one_in(among)));
        let mood = Mood::new(&mut random);
        Driver { random, network, schedule, slow, mood }
    }

    /// Adds the record and takes its step, refused or not.
    pub(crate) fn record(&mut self, record: Record) {
        record.push(&mut self.schedule);
        let network = &mut self.network;
        // A refused step has changed nothing, so both answers lead on.
        let _accepted = match record {
            Record::SetUp { .. } => false,
            Record::Write { value } => network.step_write(value).is_ok(),
            Record::Read { panel } => network.step_read(panel).is_ok(),
            Record::Deliver(message) => network.step_deliver(message).is_ok(),
            Record::PowerLoss { panel } => network.step_power_loss(panel).is_ok(),
            Record::Drain => network.step_drain(|_, _| ()).is_ok(),
        };
    }

    pub(crate) fn steps(&mut self, count: usize) {
        for _ in 0..count {
            self.step();
        }
    }

    fn step(&mut self) {
        let Mood { write, read, deliver, refused, power_loss, drain } = self.mood;
        let choices: [Choice; 6] = [
            (write, Driver::start_write),
            (read, Driver::start_read),
            (deliver, Driver::deliver_some),
            (refused, Driver::refused_step),
            (power_loss, Driver::power_loss),
            (drain, |driver| driver.record(Record::Drain)),
        ];
        let mut rest = self.random.below(choices.iter().map(|(weight, _)| weight).sum());
        for (weight, act) in choices {
            if rest < weight {
                return act(self);
            }
            rest -= weight;
        }
    }

    fn start_write(&mut self) {
        let value = self.random.value();
        self.record(Record::Write { value });
    }

    fn start_read(&mut self) {
        let panel = self.any_panel();
        self.record(Record::Read { panel });
    }

    fn power_loss(&mut self) {
        let panel = self.any_panel();
        self.record(Record::PowerLoss { panel });
    }

    pub(crate) fn any_panel(&mut self) -> u8 {
        self.random.between(1, self.network.panels[0].n)
    }

    /// One of the messages in flight to a live panel, in no order; a write or a read when there is none.
    fn deliver_some(&mut self) {
        let mut waiting = self.network.in_flight();
        waiting.retain(|message| !self.network.down[place(message.receiver)]);
        if waiting.is_empty() {
            return if self.random.one_in(2) { self.start_write() } else { self.start_read() };
        }
        let mut message = self.random.pick(&waiting);
        for _ in 0..4 {
            if !self.is_slow(message) {
                break;
            }
            message = self.random.pick(&waiting);
        }
        self.record(Record::Deliver(message));
    }

    fn is_slow(&self, message: Delivery) -> bool {
        message.kind <= WRITE1 && self.slow[place(message.sender)][place(message.receiver)]
    }

    /// Starts whatever may be started and delivers, until nothing more may be started; then tries the
    /// 201st write and everyone's 101st read. Nobody loses power before that. The limit leaves room for
    /// what is put behind it, and is reached only if operations do not finish.
    pub(crate) fn use_up(&mut self) {
        while let Some(record) = self.next_start().filter(|_| self.schedule.len() < LONGEST - 100) {
            if self.random.one_in(8) {
                self.record(record);
            } else {
                self.deliver_some_or(record);
            }
        }
        self.record(Record::Drain);
        self.start_write();
        for panel in 1..=self.network.panels[0].n {
            self.record(Record::Read { panel });
        }
    }

    fn deliver_some_or(&mut self, record: Record) {
        if self.network.find_next().is_some() {
            self.deliver_some();
        } else {
            self.record(record);
        }
    }

    /// A start that is not yet used up, at an idle panel when there is one.
    fn next_start(&mut self) -> Option<Record> {
        let mut starts = Vec::new();
        let writer = place(self.network.panels[0].writer);
        for panel in &self.network.panels[..usize::from(self.network.panels[0].n)] {
            let own = place(panel.number);
            if usize::from(panel.r[own].0) < READS {
                starts.push((panel.operation.stage, Record::Read { panel: panel.number }));
            }
            if own == writer && usize::from(panel.w[own].0) < WRITES {
                let value = self.random.value();
                starts.push((panel.operation.stage, Record::Write { value }));
            }
        }
        let idle: Vec<_> = starts.iter().filter(|(stage, _)| *stage == 0).copied().collect();
        let from = if idle.is_empty() { starts } else { idle };
        (!from.is_empty()).then(|| self.random.pick(&from).1)
    }

    /// Needs three panels and t ≥ 1, so that `late` can read on while `busy` keeps its READs waiting;
    /// smaller networks are left as they are.
    pub(crate) fn widest_event(&mut self) {
        let first = &self.network.panels[0];
        let (n, t, writer) = (first.n, first.t, first.writer);
        if t == 0 {
            return;
        }
        let others: Vec<u8> = (1..=n).filter(|&panel| panel != writer).collect();
        let (busy, late) = (others[0], others[1]);
        self.start_write();
        self.deliver_all_but(late, busy);
        for _ in 0..READS {
            self.record(Record::Read { panel: late });
            self.deliver_all_but(late, busy);
            self.record(Record::Deliver(Delivery { kind: READ, sender: late, receiver: busy }));
        }
        self.start_write();
        self.record(Record::Deliver(Delivery { kind: WRITE0, sender: writer, receiver: late }));
        for kind in [WRITE0, WRITE1] {
            self.record(Record::Deliver(Delivery { kind, sender: late, receiver: busy }));
        }
    }

    /// Everything in flight and what comes of it, but for the messages of one pair.
    fn deliver_all_but(&mut self, sender: u8, receiver: u8) {
        loop {
            let mut waiting = self.network.in_flight();
            waiting.retain(|message| (message.sender, message.receiver) != (sender, receiver));
            if waiting.is_empty() {
                return;
            }
            let message = self.random.pick(&waiting);
            self.record(Record::Deliver(message));
        }
    }
}
