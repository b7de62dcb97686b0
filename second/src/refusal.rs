//! The description, "What a refusal says": one case for each number of the table.

#[derive(Clone, Copy, PartialEq, Eq, PartialOrd, Ord, Hash, Debug)]
#[repr(u8)]
pub enum Refusal {
    SetUp = 1,
    NotInForm = 2,
    AreaShort = 3,
    PanelNumber = 4,
    Down = 5,
    NotTheWriter = 6,
    Unfinished = 7,
    UsedUp = 8,
    NotInFlight = 9,
    TooManyDown = 10,
    StrayWrite = 11,
    StrayProceed = 12,
    LineFull = 13,
    ChannelFull = 14,
    UnknownKind = 15,
    CutShort = 16,
    Misplaced = 17,
}

impl Refusal {
    pub const fn number(self) -> u8 {
        self as u8
    }

    /// Lets the order of a call's lines be the order in which its numbers are tried.
    pub(crate) fn when(self, given: bool) -> Result<(), Refusal> {
        if given {
            Err(self)
        } else {
            Ok(())
        }
    }
}
