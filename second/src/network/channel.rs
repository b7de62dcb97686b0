//! What is in flight from one panel to another.

use crate::refusal::Refusal;
use crate::wire::{PROCEED, READ, WRITE0, WRITE1};
use crate::READS;

/// Place for the one WRITE of its bit.
#[derive(Clone, Copy, PartialEq, Eq, Debug)]
pub struct Slot {
    pub full: bool,
    pub value: u32,
}

#[derive(Clone, Copy, PartialEq, Eq, Debug)]
pub struct Channel {
    /// Bit 0 first.
    pub writes: [Slot; 2],
    pub reads: u8,
    pub proceeds: u8,
}

impl Slot {
    pub const EMPTY: Slot = Slot { full: false, value: 0 };
}

impl Channel {
    pub(crate) const EMPTY: Channel = Channel { writes: [Slot::EMPTY; 2], reads: 0, proceeds: 0 };

    pub(crate) fn is_empty(&self) -> bool {
        !(self.writes[0].full | self.writes[1].full) && (self.reads | self.proceeds) == 0
    }

    pub(crate) fn has(&self, kind: u8) -> bool {
        match kind {
            WRITE0 | WRITE1 => self.writes[usize::from(kind)].full,
            READ => self.reads > 0,
            PROCEED => self.proceeds > 0,
            _ => false,
        }
    }

    /// The value of the WRITE of this kind; READ and PROCEED carry none.
    pub(crate) fn value(&self, kind: u8) -> u32 {
        self.writes.get(usize::from(kind)).map_or(0, |slot| slot.value)
    }

    /// For a message that is in flight.
    pub(crate) fn remove(&mut self, kind: u8) {
        match kind {
            READ => self.reads -= 1,
            PROCEED => self.proceeds -= 1,
            bit => self.writes[usize::from(bit)] = Slot::EMPTY,
        }
    }

    /// Refusal 14.
    pub(crate) fn send(&mut self, kind: u8, value: u32) -> Result<(), Refusal> {
        match kind {
            READ => one_more(&mut self.reads),
            PROCEED => one_more(&mut self.proceeds),
            bit => {
                let slot = &mut self.writes[usize::from(bit)];
                Refusal::ChannelFull.when(slot.full)?;
                *slot = Slot { full: true, value };
                Ok(())
            }
        }
    }
}

fn one_more(count: &mut u8) -> Result<(), Refusal> {
    Refusal::ChannelFull.when(usize::from(*count) >= READS)?;
    *count += 1;
    Ok(())
}
