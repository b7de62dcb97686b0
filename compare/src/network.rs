//! A network, by the proved crate `network`. Tables go as the bytes of `second::tables`.

use crate::panel::{answer, Answer};
use crate::proved::proved;
use second::network::Delivery;
use second::tables::NETWORK_BYTES;

proved! {
    fn compared_network_set_up(n: u8, t: u8, writer: u8, initial: u32, out: &mut [u8]) -> u8;
    fn compared_network_in_form(tables: &[u8]) -> u8;
    fn compared_network_write(tables: &[u8], v: u32, out: &mut [u8]);
    fn compared_network_read(tables: &[u8], i: u8, out: &mut [u8]);
    fn compared_network_deliver(tables: &[u8], kind: u8, i: u8, j: u8, out: &mut [u8]);
    fn compared_network_lose_power(tables: &[u8], i: u8, out: &mut [u8]);
    fn compared_network_next_delivery(tables: &[u8], out: &mut [u8]);
    fn compared_network_drain(tables: &[u8], out: &mut [u8]) -> usize;
}

pub type Tables = [u8; NETWORK_BYTES];

/// A step of a network other than a drain.
#[derive(Clone, Copy, PartialEq, Eq, Debug)]
pub enum Step {
    Write(u32),
    Read(u8),
    Deliver(Delivery),
    PowerLoss(u8),
}

/// What a step gives: the next tables and the answer.
#[derive(Clone, PartialEq, Eq, Debug)]
pub struct Stepped {
    pub tables: Tables,
    pub answer: Answer,
}

/// What a drain gives: the next tables, and how many deliveries it made or the number of the refusal.
#[derive(Clone, PartialEq, Eq, Debug)]
pub struct Drained {
    pub tables: Tables,
    pub count: Result<usize, u8>,
}

/// A fresh network, or the number of the refusal; then the tables are zeros.
pub fn set_up(n: u8, t: u8, writer: u8, initial: u32) -> (u8, Tables) {
    let mut out = [0xEE; NETWORK_BYTES];
    let refusal = compared_network_set_up(n, t, writer, initial, &mut out);
    (refusal, out)
}

pub fn in_form(tables: &Tables) -> bool {
    compared_network_in_form(tables) != 0
}

pub fn take(tables: &Tables, step: Step) -> Stepped {
    let mut out = [0xEE; NETWORK_BYTES + 6];
    match step {
        Step::Write(v) => compared_network_write(tables, v, &mut out),
        Step::Read(i) => compared_network_read(tables, i, &mut out),
        Step::Deliver(Delivery { kind, sender, receiver }) => {
            compared_network_deliver(tables, kind, sender, receiver, &mut out);
        }
        Step::PowerLoss(i) => compared_network_lose_power(tables, i, &mut out),
    }
    let (next, told) = out.split_first_chunk().expect("a network's length");
    Stepped { tables: *next, answer: answer(told) }
}

/// The message a drain would deliver next, or the number of the refusal.
pub fn next_delivery(tables: &Tables) -> Result<Option<Delivery>, u8> {
    let mut out = [0xEE; 5];
    compared_network_next_delivery(tables, &mut out);
    match out {
        [0, 1, sender, receiver, kind] => Ok(Some(Delivery { kind, sender, receiver })),
        [0, 0, 0, 0, 0] => Ok(None),
        [number, 0, 0, 0, 0] => Err(number),
        other => panic!("no answer: {other:?}"),
    }
}

pub fn drain(tables: &Tables) -> Drained {
    let mut out = [0xEE; NETWORK_BYTES + 1];
    let count = compared_network_drain(tables, &mut out);
    let (next, told) = out.split_first_chunk().expect("a network's length");
    let count = match (told[0], count) {
        (0, count) => Ok(count),
        (number, 0) => Err(number),
        other => panic!("no answer: {other:?}"),
    };
    Drained { tables: *next, count }
}
