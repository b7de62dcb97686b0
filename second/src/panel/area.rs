//! The lent message area: three number slices for receivers, kinds and values.

use super::{Finish, Reply};
use crate::refusal::Refusal;
use crate::AREA;

/// The area during one event. Places after the last message are not touched.
pub(crate) struct Outgoing<'a> {
    receivers: &'a mut [u8],
    kinds: &'a mut [u8],
    values: &'a mut [u32],
    count: usize,
}

impl<'a> Outgoing<'a> {
    /// The three slices are one area: 3 when any of them is under 107.
    pub(crate) fn lend(
        receivers: &'a mut [u8],
        kinds: &'a mut [u8],
        values: &'a mut [u32],
    ) -> Result<Outgoing<'a>, Refusal> {
        let shortest = receivers.len().min(kinds.len()).min(values.len());
        Refusal::AreaShort.when(shortest < AREA)?;
        Ok(Outgoing { receivers, kinds, values, count: 0 })
    }

    /// `place` is the receiver's number less one.
    pub(crate) fn send(&mut self, place: usize, kind: u8, value: u32) {
        self.receivers[self.count] = place as u8 + 1;
        self.kinds[self.count] = kind;
        self.values[self.count] = value;
        self.count += 1;
    }

    pub(crate) fn reply(&self, finish: Finish) -> Reply {
        Reply { finish, messages: self.count }
    }
}
