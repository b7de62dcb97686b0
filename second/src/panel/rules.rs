//! Figure 1, line by line, on tables in form: first what an event is refused for, then what it does.
//! Nothing is changed before an event is accepted. The numbers beside the rules are the figure's.

use super::area::Outgoing;
use super::form::in_range;
use super::{place, Finish, Held, Line, Operation, Panel, ReadNumber, WriteNumber};
use super::{FIRST_WAIT, NONE, SECOND_WAIT, WRITING};
use crate::refusal::Refusal;
use crate::wire::{PROCEED, READ, WRITE0, WRITE1};
use crate::READS;
use std::ops::Range;

impl Panel {
    pub(crate) fn own(&self) -> usize {
        place(self.number)
    }

    pub(crate) fn own_w(&self) -> WriteNumber {
        self.w[self.own()]
    }

    pub(crate) fn own_r(&self) -> ReadNumber {
        self.r[self.own()]
    }

    /// The places of panels 1 to n, rising.
    pub(crate) fn places(&self) -> Range<usize> {
        0..usize::from(self.n)
    }

    /// Refusals 6, 7, 8.
    pub(crate) fn judge_write(&self) -> Result<(), Refusal> {
        Refusal::NotTheWriter.when(self.number != self.writer)?;
        Refusal::Unfinished.when(self.operation.stage != NONE)?;
        Refusal::UsedUp.when(self.own_w() >= WriteNumber::LAST)
    }

    /// Refusals 7, 8.
    pub(crate) fn judge_read(&self) -> Result<(), Refusal> {
        Refusal::Unfinished.when(self.operation.stage != NONE)?;
        Refusal::UsedUp.when(self.own_r() >= ReadNumber::LAST)
    }

    /// Refusals 4, 11, 12, 13, 15.
    pub(crate) fn judge_delivery(&self, kind: u8, sender: u8) -> Result<(), Refusal> {
        Refusal::PanelNumber.when(!in_range(sender, self.n) || sender == self.number)?;
        let j = place(sender);
        match kind {
            WRITE0 | WRITE1 => Refusal::StrayWrite.when(self.is_stray(kind, j)),
            READ => Refusal::LineFull.when(self.must_wait(j) && self.lines[j].is_full()),
            PROCEED => Refusal::StrayProceed.when(self.r[j] == self.own_r()),
            _ => Err(Refusal::UnknownKind),
        }
    }

    /// Refusal 11: the number is w[j]+1, or w[j]+2 when the bit differs.
    fn is_stray(&self, bit: u8, j: usize) -> bool {
        let held = self.must_be_held(bit, j);
        let in_turn = self.w[j].next();
        let number = if held { in_turn.next() } else { in_turn };
        number > WriteNumber::LAST
            || (self.number == self.writer && number > self.own_w())
            || (held && self.held[j].full)
    }

    /// (11)
    fn must_be_held(&self, bit: u8, j: usize) -> bool {
        bit != self.w[j].next().bit()
    }

    /// (19), (20)
    fn must_wait(&self, j: usize) -> bool {
        self.w[j] < self.own_w()
    }

    /// Write v.
    pub(crate) fn begin_write(&mut self, v: u32, out: &mut Outgoing) -> Finish {
        self.learn(v, out); // (1), (2)
        self.operation.stage = WRITING;
        self.look()
    }

    /// Read.
    pub(crate) fn begin_read(&mut self, out: &mut Outgoing) -> Finish {
        let i = self.own();
        self.r[i] = self.r[i].next(); // (5)
        for j in self.places().filter(|&j| j != i) {
            out.send(j, READ, 0); // (6)
        }
        self.operation.stage = FIRST_WAIT;
        self.look()
    }

    /// A delivery that was judged.
    pub(crate) fn take(&mut self, kind: u8, sender: u8, v: u32, out: &mut Outgoing) -> Finish {
        let j = place(sender);
        match kind {
            READ => self.take_read(j, out),
            PROCEED => self.r[j] = self.r[j].next(), // (22)
            bit => self.take_write(bit, j, v, out),
        }
        self.look()
    }

    fn take_write(&mut self, bit: u8, j: usize, v: u32, out: &mut Outgoing) {
        if self.must_be_held(bit, j) {
            self.held[j] = Held { full: true, value: v }; // (11)
            return;
        }
        self.treat(j, v, out);
        // The one held behind it is next in turn now, whatever its bit was compared with before.
        let behind = std::mem::replace(&mut self.held[j], Held::EMPTY);
        if behind.full {
            self.treat(j, behind.value, out);
        }
        for _ in 0..self.lines[j].release(self.w[j]) {
            out.send(j, PROCEED, 0); // (20), (21)
        }
    }

    fn treat(&mut self, j: usize, v: u32, out: &mut Outgoing) {
        let x = self.w[j].next(); // (12)
        let known = self.own_w();
        if x == known.next() {
            self.learn(v, out); // (13), (14), (15)
        } else if x < known {
            let y = x.next();
            out.send(j, y.bit(), self.history[y.place()]); // (16)
        }
        self.w[j] = x; // (18), after the forwarding, so that j gets its echo
    }

    /// Lines 1 and 2 at the writer, 14 and 15 elsewhere: the same two lines.
    fn learn(&mut self, v: u32, out: &mut Outgoing) {
        let i = self.own();
        let known = self.w[i];
        let x = known.next();
        self.w[i] = x;
        self.history[x.place()] = v; // (1), (14)
        for l in self.places() {
            if self.w[l] == known {
                out.send(l, x.bit(), v); // (2), (15)
            }
        }
    }

    fn take_read(&mut self, j: usize, out: &mut Outgoing) {
        if self.must_wait(j) {
            let sn = self.own_w();
            self.lines[j].join(sn); // (19), (20)
        } else {
            out.send(j, PROCEED, 0); // (21)
        }
    }

    /// The operation is looked at after every accepted event.
    fn look(&mut self) -> Finish {
        let (w, r) = (self.own_w(), self.own_r());
        match self.operation.stage {
            WRITING if self.enough(|j| self.w[j] == w) => self.finish(Finish::Write(w)), // (3), (4)
            FIRST_WAIT if self.enough(|j| self.r[j] == r) => {
                self.operation = Operation { stage: SECOND_WAIT, sn: w }; // (7), (8)
                self.look_again()
            }
            SECOND_WAIT => self.look_again(),
            _ => Finish::Nothing,
        }
    }

    fn look_again(&mut self) -> Finish {
        let sn = self.operation.sn;
        if !self.enough(|j| self.w[j] >= sn) {
            return Finish::Nothing; // (9)
        }
        self.finish(Finish::Read(sn, self.history[sn.place()])) // (10)
    }

    fn finish(&mut self, finish: Finish) -> Finish {
        self.operation = Operation::NONE;
        finish
    }

    /// At least n−t panels, as lines 3, 7 and 9 ask.
    fn enough(&self, counts: impl Fn(usize) -> bool) -> bool {
        let z = self.places().filter(|&j| counts(j)).count();
        z >= usize::from(self.n - self.t)
    }
}

impl Line {
    fn is_full(&self) -> bool {
        usize::from(self.len) >= READS
    }

    fn join(&mut self, sn: WriteNumber) {
        self.sn[usize::from(self.len)] = sn;
        self.len += 1;
    }

    /// READs with sn at most `known` leave from the front; says how many.
    fn release(&mut self, known: WriteNumber) -> usize {
        let len = usize::from(self.len);
        let leaving = self.sn[..len].iter().take_while(|&&sn| sn <= known).count();
        self.sn.copy_within(leaving..len, 0);
        self.sn[len - leaving..len].fill(WriteNumber::ZERO);
        self.len -= leaving as u8;
        leaving
    }
}
