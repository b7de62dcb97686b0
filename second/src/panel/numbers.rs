//! "In this trade a write number is never counted or compared as a read number": two types, so that
//! mixing them does not compile. The report's w_sync and r_sync counters.

use crate::{READS, WRITES};

#[derive(Clone, Copy, PartialEq, Eq, PartialOrd, Ord, Default, Debug)]
pub struct WriteNumber(pub u8);

impl WriteNumber {
    pub const ZERO: WriteNumber = WriteNumber(0);
    pub(crate) const LAST: WriteNumber = WriteNumber(WRITES as u8);

    /// For numbers up to `LAST`, of which the second next is wanted at most.
    pub(crate) fn next(self) -> WriteNumber {
        WriteNumber(self.0 + 1)
    }

    /// x mod 2, which is also the wire kind of the WRITE with this number.
    pub(crate) fn bit(self) -> u8 {
        self.0 % 2
    }

    /// The place of this write's value in a history.
    pub(crate) fn place(self) -> usize {
        usize::from(self.0)
    }
}

#[derive(Clone, Copy, PartialEq, Eq, PartialOrd, Ord, Default, Debug)]
pub struct ReadNumber(pub u8);

impl ReadNumber {
    pub(crate) const ZERO: ReadNumber = ReadNumber(0);
    pub(crate) const LAST: ReadNumber = ReadNumber(READS as u8);

    pub(crate) fn next(self) -> ReadNumber {
        ReadNumber(self.0 + 1)
    }
}
