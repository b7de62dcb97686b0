//! The description, "Tables of a panel": when a panel is in form. Each part below may lean on the ones
//! before it, so `in_form` is safe on any tables.

use super::{Held, Line, Panel, ReadNumber, WriteNumber};
use super::{FIRST_WAIT, NONE, SECOND_WAIT, WRITING};
use crate::{PANELS, READS, WRITES};

pub(crate) fn in_range(number: u8, n: u8) -> bool {
    (1..=n).contains(&number)
}

/// 2·t < n is said as t < n − t, which does not wrap for any t.
pub(crate) fn sizes_fit(n: u8, t: u8, writer: u8) -> bool {
    in_range(n, PANELS as u8) && t < n.saturating_sub(t) && in_range(writer, n)
}

impl Panel {
    pub fn in_form(&self) -> bool {
        sizes_fit(self.n, self.t, self.writer)
            && in_range(self.number, self.n)
            && self.numbers_fit()
            && self.operation_fits()
            && self.places().all(|j| self.peer_fits(j))
            && self.unused_is_zero()
    }

    /// w[j] ≤ w[i] ≤ 200 and r[j] ≤ r[i] ≤ 100 for every j.
    fn numbers_fit(&self) -> bool {
        let (w, r) = (self.own_w(), self.own_r());
        let at_most_own = |j: usize| self.w[j] <= w && self.r[j] <= r;
        w <= WriteNumber::LAST && r <= ReadNumber::LAST && self.places().all(at_most_own)
    }

    /// Writing only at the writer with w[i] ≥ 1; reading only with r[i] ≥ 1, and sn ≤ w[i]; sn outside
    /// the second wait is zero.
    fn operation_fits(&self) -> bool {
        let (sn, w) = (self.operation.sn, self.own_w());
        let has_read = self.own_r() > ReadNumber::ZERO;
        match self.operation.stage {
            NONE => sn == WriteNumber::ZERO,
            WRITING => {
                self.number == self.writer && w > WriteNumber::ZERO && sn == WriteNumber::ZERO
            }
            FIRST_WAIT => has_read && sn == WriteNumber::ZERO,
            SECOND_WAIT => has_read && sn <= w,
            _ => false,
        }
    }

    /// Nothing is held or waiting for i itself.
    fn peer_fits(&self, j: usize) -> bool {
        if j == self.own() {
            return self.held[j] == Held::EMPTY && self.lines[j] == Line::EMPTY;
        }
        self.held_fits(j) && self.line_fits(j)
    }

    /// A held WRITE of j has w[j]+2 ≤ 200, and at the writer w[j]+2 ≤ w[i].
    fn held_fits(&self, j: usize) -> bool {
        if !self.held[j].full {
            return self.held[j].value == 0;
        }
        let number = self.w[j].next().next();
        number <= WriteNumber::LAST && (self.number != self.writer || number <= self.own_w())
    }

    /// At most 100 entries, not falling, each above w[j] and at most w[i]; zero past the end.
    fn line_fits(&self, j: usize) -> bool {
        let line = &self.lines[j];
        let len = usize::from(line.len);
        if len > READS {
            return false;
        }
        let (waiting, rest) = line.sn.split_at(len);
        let between = |&sn: &WriteNumber| self.w[j] < sn && sn <= self.own_w();
        waiting.iter().all(between)
            && waiting.windows(2).all(|pair| pair[0] <= pair[1])
            && rest.iter().all(|&sn| sn == WriteNumber::ZERO)
    }

    /// Places past n and past w[i].
    fn unused_is_zero(&self) -> bool {
        let unused = |j: usize| {
            self.w[j] == WriteNumber::ZERO
                && self.r[j] == ReadNumber::ZERO
                && self.held[j] == Held::EMPTY
                && self.lines[j] == Line::EMPTY
        };
        let past_own = self.own_w().place() + 1..=WRITES;
        (usize::from(self.n)..PANELS).all(unused) && self.history[past_own].iter().all(|&v| v == 0)
    }
}
