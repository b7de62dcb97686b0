//! The description, "Bytes": one message on the wire, a byte of kind and then its body.

use crate::refusal::Refusal;

pub(crate) const WRITE0: u8 = 0;
pub(crate) const WRITE1: u8 = 1;
pub(crate) const READ: u8 = 2;
pub(crate) const PROCEED: u8 = 3;

/// A message read from the front of some bytes; the value is zero for READ and PROCEED.
#[derive(Clone, Copy, PartialEq, Eq, Debug)]
pub struct Message {
    pub kind: u8,
    pub value: u32,
    pub used: usize,
}

/// An unknown kind counts one byte: "unknown kind byte (length 1 for number 3)".
const fn length(kind: u8) -> usize {
    if kind <= WRITE1 {
        5
    } else {
        1
    }
}

/// Writes a message to the front of a lent byte area and gives the length used. Tries 3, then 15.
pub fn write(kind: u8, value: u32, area: &mut [u8]) -> Result<usize, Refusal> {
    let used = length(kind);
    Refusal::AreaShort.when(area.len() < used)?;
    Refusal::UnknownKind.when(kind > PROCEED || (kind >= READ && value != 0))?;
    area[0] = kind;
    if kind <= WRITE1 {
        area[1..used].copy_from_slice(&value.to_be_bytes());
    }
    Ok(used)
}

/// Reads one message from the front. No byte is 16, an unknown kind 15, a WRITE cut short 16.
pub fn read(bytes: &[u8]) -> Result<Message, Refusal> {
    let kind = *bytes.first().ok_or(Refusal::CutShort)?;
    Refusal::UnknownKind.when(kind > PROCEED)?;
    let used = length(kind);
    let body = bytes.get(1..used).ok_or(Refusal::CutShort)?;
    let value = body.try_into().map_or(0, u32::from_be_bytes);
    Ok(Message { kind, value, used })
}
