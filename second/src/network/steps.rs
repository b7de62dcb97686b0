//! The description, "The network's steps", on a network in form, which is not tested here: a run from
//! fresh stays in form, so a listing need not look again at every step. A refused step changes nothing.

use super::{Delivery, Network};
use crate::panel::area::Outgoing;
use crate::panel::{place, Finish, Panel};
use crate::refusal::Refusal;
use crate::AREA;

impl Network {
    fn n(&self) -> u8 {
        self.panels[0].n
    }

    fn is_panel(&self, number: u8) -> bool {
        (1..=self.n()).contains(&number)
    }

    pub(crate) fn how_many_down(&self) -> usize {
        self.down.iter().filter(|&&down| down).count()
    }

    /// Refusals 5, 7, 8, 14. The network starts a write at the writer, so 6 cannot be met.
    pub(crate) fn step_write(&mut self, v: u32) -> Result<Finish, Refusal> {
        let i = place(self.panels[0].writer);
        Refusal::Down.when(self.down[i])?;
        self.panels[i].judge_write()?;
        self.act(i, |panel, out| panel.begin_write(v, out))
    }

    /// Refusals 4, 5, 7, 8, 14.
    pub(crate) fn step_read(&mut self, panel: u8) -> Result<Finish, Refusal> {
        let i = self.powered(panel)?;
        self.panels[i].judge_read()?;
        self.act(i, |panel, out| panel.begin_read(out))
    }

    /// Refusals 4, 5, 9, 11, 12, 13, 14. Whether the sender is powered is not asked.
    pub(crate) fn step_deliver(&mut self, message: Delivery) -> Result<Finish, Refusal> {
        let Delivery { kind, sender, receiver } = message;
        Refusal::PanelNumber.when(!self.is_panel(sender) || sender == receiver)?;
        let i = self.powered(receiver)?;
        let j = place(sender);
        let channel = &self.channels[j][i];
        Refusal::NotInFlight.when(!channel.has(kind))?;
        let value = channel.value(kind);
        self.panels[i].judge_delivery(kind, sender)?;
        let finish = self.act(i, |panel, out| panel.take(kind, sender, value, out))?;
        self.channels[j][i].remove(kind);
        Ok(finish)
    }

    /// Refusals 4, 5, 10.
    pub(crate) fn step_power_loss(&mut self, panel: u8) -> Result<(), Refusal> {
        let i = self.powered(panel)?;
        Refusal::TooManyDown.when(self.how_many_down() >= usize::from(self.panels[0].t))?;
        self.down[i] = true;
        Ok(())
    }

    /// Shows each delivery to `seen`. Refused whole: the network is put back as it was.
    pub(crate) fn step_drain(
        &mut self,
        mut seen: impl FnMut(Delivery, Finish),
    ) -> Result<u32, Refusal> {
        let Some(mut message) = self.find_next() else {
            return Ok(0);
        };
        let before = self.clone();
        let mut count = 0;
        loop {
            match self.step_deliver(message) {
                Ok(finish) => seen(message, finish),
                Err(refusal) => {
                    *self = before;
                    return Err(refusal);
                }
            }
            count += 1;
            match self.find_next() {
                Some(next) => message = next,
                None => return Ok(count),
            }
        }
    }

    /// The first message in flight to a live panel, by sender, then receiver, then kind.
    pub(crate) fn find_next(&self) -> Option<Delivery> {
        let n = usize::from(self.n());
        for (sender, row) in (1..).zip(&self.channels[..n]) {
            for (receiver, (channel, &down)) in (1..).zip(row[..n].iter().zip(&self.down)) {
                if channel.is_empty() || down {
                    continue;
                }
                for kind in 0..=3 {
                    if channel.has(kind) {
                        return Some(Delivery { kind, sender, receiver });
                    }
                }
            }
        }
        None
    }

    /// Refusals 4 and 5 for the panel that should act, receive or lose power; gives its place.
    fn powered(&self, number: u8) -> Result<usize, Refusal> {
        Refusal::PanelNumber.when(!self.is_panel(number))?;
        let i = place(number);
        Refusal::Down.when(self.down[i])?;
        Ok(i)
    }

    /// Runs an accepted event at one panel and sends its messages. Both are done on copies, which are put
    /// in place when all messages have found room (14).
    fn act(
        &mut self,
        i: usize,
        event: impl FnOnce(&mut Panel, &mut Outgoing) -> Finish,
    ) -> Result<Finish, Refusal> {
        let (mut receivers, mut kinds, mut values) = ([0; AREA], [0; AREA], [0; AREA]);
        let mut out = Outgoing::lend(&mut receivers, &mut kinds, &mut values)?;
        let (mut panel, mut row) = (self.panels[i].clone(), self.channels[i]);
        let finish = event(&mut panel, &mut out);
        for k in 0..out.reply(finish).messages {
            row[place(receivers[k])].send(kinds[k], values[k])?;
        }
        self.panels[i] = panel;
        self.channels[i] = row;
        Ok(finish)
    }
}
