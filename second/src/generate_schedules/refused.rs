//! Steps that are refused, each for a reason a schedule can meet from fresh: 4, 5, 7, 9, 10, 17. The
//! others are made in `mod`: 1, 15, 16 and the first 17 by whole schedules, 8 by the used-up ones.

use super::driver::Driver;
use crate::network::Delivery;
use crate::schedule::Record;

impl Driver {
    /// Mostly refused; accepted now and then where the network has no case for the reason.
    pub(crate) fn refused_step(&mut self) {
        let record = match self.random.below(7) {
            0 => self.wrong_number(),
            1 => self.wrong_pair(),
            2 => self.at_a_down_panel(),
            3 => self.at_a_busy_panel(),
            4 => self.not_in_flight(),
            5 => self.late_set_up(),
            _ => Record::PowerLoss { panel: self.any_panel() },
        };
        // A power loss is wanted here only when it is refused, 10 among the reasons.
        let t = usize::from(self.network.panels[0].t);
        if !matches!(record, Record::PowerLoss { .. }) || self.network.how_many_down() == t {
            self.record(record);
        }
    }

    fn number_outside(&mut self) -> u8 {
        let n = self.network.panels[0].n;
        self.random.pick(&[0, n + 1, 8, 255])
    }

    fn wrong_number(&mut self) -> Record {
        let panel = self.number_outside();
        if self.random.one_in(2) {
            Record::Read { panel }
        } else {
            Record::PowerLoss { panel }
        }
    }

    fn wrong_pair(&mut self) -> Record {
        let (inside, outside) = (self.any_panel(), self.number_outside());
        let (sender, receiver) =
            self.random.pick(&[(inside, inside), (inside, outside), (outside, inside)]);
        self.delivery(sender, receiver)
    }

    fn delivery(&mut self, sender: u8, receiver: u8) -> Record {
        let kind = self.random.between(0, 3);
        Record::Deliver(Delivery { kind, sender, receiver })
    }

    fn at_a_down_panel(&mut self) -> Record {
        let down = (1..).zip(self.network.down).find(|&(_, down)| down);
        let panel = down.map_or_else(|| self.any_panel(), |(panel, _)| panel);
        match self.random.below(3) {
            0 => Record::Read { panel },
            1 => Record::PowerLoss { panel },
            _ => {
                let sender = self.any_panel();
                self.delivery(sender, panel)
            }
        }
    }

    fn at_a_busy_panel(&mut self) -> Record {
        let writer = self.network.panels[0].writer;
        let busy = self.network.panels.iter().find(|panel| panel.operation.stage != 0);
        match busy.map(|panel| panel.number) {
            Some(panel) if panel != writer || self.random.one_in(2) => Record::Read { panel },
            _ => Record::Write { value: self.random.value() },
        }
    }

    fn not_in_flight(&mut self) -> Record {
        let (sender, receiver) = (self.any_panel(), self.any_panel());
        self.delivery(sender, receiver)
    }

    fn late_set_up(&mut self) -> Record {
        let [n, t, writer] = [(); 3].map(|()| self.random.between(0, 9));
        Record::SetUp { n, t, writer, initial: self.random.value() }
    }
}
