//! A panel: its tables and the calls of a lone panel, on any tables. The rules themselves are in
//! `rules`, the test of the tables in `form`.

pub(crate) mod area;
mod form;
mod numbers;
mod rules;

pub use numbers::{ReadNumber, WriteNumber};

use crate::refusal::Refusal;
use crate::wire;
use crate::{PANELS, READS, WRITES};
use area::Outgoing;

/// The description, "Tables of a panel". What belongs to panel j stands at place j less one.
#[derive(Clone, PartialEq, Eq, Debug)]
pub struct Panel {
    pub n: u8,
    pub t: u8,
    pub writer: u8,
    pub number: u8,
    /// How far this panel knows each panel to be; its own is the last value it knows.
    pub w: [WriteNumber; PANELS],
    /// Its own reads, and the PROCEEDs from each other panel.
    pub r: [ReadNumber; PANELS],
    /// Place 0 is the initial value.
    pub history: [u32; WRITES + 1],
    pub held: [Held; PANELS],
    pub lines: [Line; PANELS],
    pub operation: Operation,
}

/// A WRITE that came before its turn (line 11).
#[derive(Clone, Copy, PartialEq, Eq, Debug)]
pub struct Held {
    pub full: bool,
    pub value: u32,
}

/// Waiting READs of one peer, oldest first, each with its sn (line 20).
#[derive(Clone, Copy, PartialEq, Eq, Debug)]
pub struct Line {
    pub len: u8,
    pub sn: [WriteNumber; READS],
}

/// `stage` is one of the constants below; `sn` is kept in the second wait alone (line 8).
#[derive(Clone, Copy, PartialEq, Eq, Debug)]
pub struct Operation {
    pub stage: u8,
    pub sn: WriteNumber,
}

pub(crate) const NONE: u8 = 0;
pub const WRITING: u8 = 1;
pub const FIRST_WAIT: u8 = 2;
pub const SECOND_WAIT: u8 = 3;

/// What an event finished.
#[derive(Clone, Copy, PartialEq, Eq, Debug)]
pub enum Finish {
    Nothing,
    Write(WriteNumber),
    Read(WriteNumber, u32),
}

/// What an accepted event hands back beside the tables: the result, and how many messages stand in
/// the lent area.
#[derive(Clone, Copy, PartialEq, Eq, Debug)]
pub struct Reply {
    pub finish: Finish,
    pub messages: usize,
}

/// The place of a panel's number, which is at least 1.
pub(crate) fn place(number: u8) -> usize {
    usize::from(number) - 1
}

impl Held {
    pub(crate) const EMPTY: Held = Held { full: false, value: 0 };
}

impl Line {
    pub const EMPTY: Line = Line { len: 0, sn: [WriteNumber::ZERO; READS] };
}

impl Operation {
    pub(crate) const NONE: Operation = Operation { stage: NONE, sn: WriteNumber::ZERO };
}

impl Panel {
    pub const ZERO: Panel = Panel {
        n: 0,
        t: 0,
        writer: 0,
        number: 0,
        w: [WriteNumber::ZERO; PANELS],
        r: [ReadNumber::ZERO; PANELS],
        history: [0; WRITES + 1],
        held: [Held::EMPTY; PANELS],
        lines: [Line::EMPTY; PANELS],
        operation: Operation::NONE,
    };

    /// The figure's initialization. Tries 1 for n, t and writer, then 4 for the panel's own number.
    pub fn set_up(n: u8, t: u8, writer: u8, number: u8, initial: u32) -> Result<Panel, Refusal> {
        Refusal::SetUp.when(!form::sizes_fit(n, t, writer))?;
        Refusal::PanelNumber.when(!form::in_range(number, n))?;
        let mut panel = Panel { n, t, writer, number, ..Panel::ZERO };
        panel.history[0] = initial;
        Ok(panel)
    }

    /// Write v, lines 1 to 4. Tries 2, 3, 6, 7, 8.
    pub fn write(
        &mut self,
        v: u32,
        receivers: &mut [u8],
        kinds: &mut [u8],
        values: &mut [u32],
    ) -> Result<Reply, Refusal> {
        let mut out = self.admit(receivers, kinds, values)?;
        self.judge_write()?;
        let finish = self.begin_write(v, &mut out);
        Ok(out.reply(finish))
    }

    /// Read, lines 5 to 10. Tries 2, 3, 7, 8.
    pub fn read(
        &mut self,
        receivers: &mut [u8],
        kinds: &mut [u8],
        values: &mut [u32],
    ) -> Result<Reply, Refusal> {
        let mut out = self.admit(receivers, kinds, values)?;
        self.judge_read()?;
        let finish = self.begin_read(&mut out);
        Ok(out.reply(finish))
    }

    /// A message of any wire kind from `sender`. Tries 2, 3, 4, 11, 12, 13, and 15 for an unknown kind.
    /// READ and PROCEED carry no value: theirs is not looked at.
    pub fn deliver(
        &mut self,
        kind: u8,
        sender: u8,
        value: u32,
        receivers: &mut [u8],
        kinds: &mut [u8],
        values: &mut [u32],
    ) -> Result<Reply, Refusal> {
        let mut out = self.admit(receivers, kinds, values)?;
        self.judge_delivery(kind, sender)?;
        let finish = self.take(kind, sender, value, &mut out);
        Ok(out.reply(finish))
    }

    /// WRITE(b, v) from j, lines 11 to 18; `odd` is bit 1. Tries 2, 3, 4, 11.
    pub fn write_from(
        &mut self,
        j: u8,
        odd: bool,
        v: u32,
        receivers: &mut [u8],
        kinds: &mut [u8],
        values: &mut [u32],
    ) -> Result<Reply, Refusal> {
        self.deliver(u8::from(odd), j, v, receivers, kinds, values)
    }

    /// READ from j, lines 19 to 21. Tries 2, 3, 4, 13.
    pub fn read_from(
        &mut self,
        j: u8,
        receivers: &mut [u8],
        kinds: &mut [u8],
        values: &mut [u32],
    ) -> Result<Reply, Refusal> {
        self.deliver(wire::READ, j, 0, receivers, kinds, values)
    }

    /// PROCEED from j, line 22. Tries 2, 3, 4, 12.
    pub fn proceed_from(
        &mut self,
        j: u8,
        receivers: &mut [u8],
        kinds: &mut [u8],
        values: &mut [u32],
    ) -> Result<Reply, Refusal> {
        self.deliver(wire::PROCEED, j, 0, receivers, kinds, values)
    }

    /// Refusals 2 and 3, which every call tries first.
    fn admit<'a>(
        &self,
        receivers: &'a mut [u8],
        kinds: &'a mut [u8],
        values: &'a mut [u32],
    ) -> Result<Outgoing<'a>, Refusal> {
        Refusal::NotInForm.when(!self.in_form())?;
        Outgoing::lend(receivers, kinds, values)
    }
}
