//! A network: panels, channels between them, and which panels are down. The calls here test the form
//! first (2) and then take the step; the steps themselves are in `steps`.

mod channel;
mod form;
mod steps;

pub use channel::{Channel, Slot};

use crate::panel::{place, Finish, Panel};
use crate::refusal::Refusal;
use crate::PANELS;

/// What belongs to panel j stands at place j less one. The network's n, t, writer and initial value
/// are those of panel 1.
#[derive(Clone, PartialEq, Eq, Debug)]
pub struct Network {
    pub panels: [Panel; PANELS],
    pub down: [bool; PANELS],
    /// First place the sender, second the receiver.
    pub channels: [[Channel; PANELS]; PANELS],
}

/// A message in flight: its wire kind and the numbers of its two panels.
#[derive(Clone, Copy, PartialEq, Eq, Debug)]
pub struct Delivery {
    pub kind: u8,
    pub sender: u8,
    pub receiver: u8,
}

impl Network {
    pub const ZERO: Network = Network {
        panels: [Panel::ZERO; PANELS],
        down: [false; PANELS],
        channels: [[Channel::EMPTY; PANELS]; PANELS],
    };

    /// Tries 1.
    pub fn set_up(n: u8, t: u8, writer: u8, initial: u32) -> Result<Network, Refusal> {
        let first = Panel::set_up(n, t, writer, 1, initial)?;
        let mut network = Network::ZERO;
        for number in 1..=n {
            let panel = Panel { number, ..first.clone() };
            network.panels[place(number)] = panel;
        }
        Ok(network)
    }

    /// Starts a write at the writer. Tries 2, 5, 7, 8, 14.
    pub fn write(&mut self, v: u32) -> Result<Finish, Refusal> {
        self.admit()?;
        self.step_write(v)
    }

    /// Starts a read. Tries 2, 4, 5, 7, 8, 14.
    pub fn read(&mut self, panel: u8) -> Result<Finish, Refusal> {
        self.admit()?;
        self.step_read(panel)
    }

    /// Delivers one message. Tries 2, 4, 5, 9, 11, 12, 13, 14. No message of an unknown kind is ever
    /// in flight: that is 9, which comes before 15.
    pub fn deliver(&mut self, kind: u8, sender: u8, receiver: u8) -> Result<Finish, Refusal> {
        self.admit()?;
        self.step_deliver(Delivery { kind, sender, receiver })
    }

    /// Tries 2, 4, 5, 10.
    pub fn power_loss(&mut self, panel: u8) -> Result<(), Refusal> {
        self.admit()?;
        self.step_power_loss(panel)
    }

    /// Gives the count of its deliveries. Tries 2, then what a delivery within it is refused for.
    pub fn drain(&mut self) -> Result<u32, Refusal> {
        self.admit()?;
        self.step_drain(|_, _| ())
    }

    /// The message a drain would deliver next. Tries 2.
    pub fn next_delivery(&self) -> Result<Option<Delivery>, Refusal> {
        self.admit()?;
        Ok(self.find_next())
    }

    /// All there is to deliver, each kind of a pair once, also to panels that are down: by sender, then
    /// receiver, then kind. Asks nothing of the tables.
    pub fn in_flight(&self) -> Vec<Delivery> {
        let mut found = Vec::new();
        for (sender, row) in (1..).zip(&self.channels) {
            for (receiver, channel) in (1..).zip(row) {
                let kinds = (0..=3).filter(|&kind| channel.has(kind));
                found.extend(kinds.map(|kind| Delivery { kind, sender, receiver }));
            }
        }
        found
    }

    fn admit(&self) -> Result<(), Refusal> {
        Refusal::NotInForm.when(!self.in_form())
    }
}
