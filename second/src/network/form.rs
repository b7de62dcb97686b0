//! The description, "Tables of a panel", its second sentence on form: when a network is in form. At most
//! one WRITE of each bit in flight is the shape of a channel and needs no test.

use super::{Channel, Network, Slot};
use crate::panel::Panel;
use crate::{PANELS, READS};

impl Network {
    pub fn in_form(&self) -> bool {
        let first = &self.panels[0];
        if !first.in_form() {
            return false;
        }
        let n = usize::from(first.n);
        self.panels_fit(n) && self.power_fits(n, first.t) && self.channels_fit(n)
    }

    /// In form, agreeing on n, t, writer and initial value, numbered in order; zero past n.
    fn panels_fit(&self, n: usize) -> bool {
        let (used, unused) = self.panels.split_at(n);
        let first = &used[0];
        let fits = |(number, panel): (u8, &Panel)| {
            panel.number == number && agree(panel, first) && panel.in_form()
        };
        (1..).zip(used).all(fits) && unused.iter().all(|panel| *panel == Panel::ZERO)
    }

    /// At most t are down; no flag past n.
    fn power_fits(&self, n: usize, t: u8) -> bool {
        self.how_many_down() <= usize::from(t) && self.down[n..].iter().all(|&down| !down)
    }

    /// No panel sends to itself; a channel past n or on the diagonal is empty.
    fn channels_fit(&self, n: usize) -> bool {
        let fits = |sender: usize, receiver: usize| {
            let channel = &self.channels[sender][receiver];
            if sender == receiver || sender >= n || receiver >= n {
                return *channel == Channel::EMPTY;
            }
            channel_fits(channel)
        };
        (0..PANELS).all(|sender| (0..PANELS).all(|receiver| fits(sender, receiver)))
    }
}

fn agree(panel: &Panel, first: &Panel) -> bool {
    panel.n == first.n
        && panel.t == first.t
        && panel.writer == first.writer
        && panel.history[0] == first.history[0]
}

/// At most 100 READs and 100 PROCEEDs; the value of an empty slot is zero.
fn channel_fits(channel: &Channel) -> bool {
    let empty_is_zero = |slot: &Slot| slot.full || slot.value == 0;
    usize::from(channel.reads) <= READS
        && usize::from(channel.proceeds) <= READS
        && channel.writes.iter().all(empty_is_zero)
}
