//! A lone panel, by the proved crate `panel`. Tables go as the bytes of `second::tables`.

use crate::proved::proved;
use second::panel::{Finish, WriteNumber};
use second::tables::PANEL_BYTES;

proved! {
    fn compared_panel_set_up(n: u8, t: u8, writer: u8, number: u8, initial: u32, out: &mut [u8]) -> u8;
    fn compared_panel_in_form(tables: &[u8]) -> u8;
    fn compared_panel_write(
        tables: &[u8], v: u32,
        receivers: &mut [u8], kinds: &mut [u8], values: &mut [u32], out: &mut [u8]
    ) -> usize;
    fn compared_panel_read(
        tables: &[u8],
        receivers: &mut [u8], kinds: &mut [u8], values: &mut [u32], out: &mut [u8]
    ) -> usize;
    fn compared_panel_write_from(
        tables: &[u8], j: u8, bit: u8, v: u32,
        receivers: &mut [u8], kinds: &mut [u8], values: &mut [u32], out: &mut [u8]
    ) -> usize;
    fn compared_panel_read_from(
        tables: &[u8], j: u8,
        receivers: &mut [u8], kinds: &mut [u8], values: &mut [u32], out: &mut [u8]
    ) -> usize;
    fn compared_panel_proceed_from(
        tables: &[u8], j: u8,
        receivers: &mut [u8], kinds: &mut [u8], values: &mut [u32], out: &mut [u8]
    ) -> usize;
}

type Tables = [u8; PANEL_BYTES];

/// An event at a lone panel.
#[derive(Clone, Copy, PartialEq, Eq, Debug)]
pub enum Event {
    Write(u32),
    Read,
    WriteFrom(u8, bool, u32),
    ReadFrom(u8),
    ProceedFrom(u8),
}

/// What was finished, or the number of the refusal.
pub type Answer = Result<Finish, u8>;

/// The three slices of a message area.
#[derive(Clone, PartialEq, Eq, Debug)]
pub struct Area {
    pub receivers: Vec<u8>,
    pub kinds: Vec<u8>,
    pub values: Vec<u32>,
}

/// What a call gives: the next tables, the answer, and how many messages stand in the area.
#[derive(Clone, PartialEq, Eq, Debug)]
pub struct Outcome {
    pub tables: Tables,
    pub answer: Answer,
    pub messages: usize,
}

/// A fresh panel, or the number of the refusal; then the tables are zeros.
pub fn set_up(n: u8, t: u8, writer: u8, number: u8, initial: u32) -> (u8, Tables) {
    let mut out = [0xEE; PANEL_BYTES];
    let refusal = compared_panel_set_up(n, t, writer, number, initial, &mut out);
    (refusal, out)
}

pub fn in_form(tables: &Tables) -> bool {
    compared_panel_in_form(tables) != 0
}

pub fn happen(tables: &Tables, event: Event, area: &mut Area) -> Outcome {
    let mut out = [0xEE; PANEL_BYTES + 6];
    let (to, Area { receivers: r, kinds: k, values: v }) = (&mut out, area);
    let messages = match event {
        Event::Write(x) => compared_panel_write(tables, x, r, k, v, to),
        Event::Read => compared_panel_read(tables, r, k, v, to),
        Event::WriteFrom(j, odd, x) => {
            compared_panel_write_from(tables, j, u8::from(odd), x, r, k, v, to)
        }
        Event::ReadFrom(j) => compared_panel_read_from(tables, j, r, k, v, to),
        Event::ProceedFrom(j) => compared_panel_proceed_from(tables, j, r, k, v, to),
    };
    let (next, told) = out.split_first_chunk().expect("a panel's length");
    Outcome { tables: *next, answer: answer(told), messages }
}

/// A case, a number, and a value of four bytes.
pub(crate) fn answer(told: &[u8]) -> Answer {
    let value = u32::from_be_bytes(told[2..6].try_into().expect("four bytes"));
    match (told[0], told[1], value) {
        (0, number, 0) => Err(number),
        (1, 0, 0) => Ok(Finish::Nothing),
        (2, number, 0) => Ok(Finish::Write(WriteNumber(number))),
        (3, number, value) => Ok(Finish::Read(WriteNumber(number), value)),
        other => panic!("no answer: {other:?}"),
    }
}
