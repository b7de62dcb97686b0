//! The description, "Bytes": schedule records, read one after the other from a lent schedule.

use crate::network::Delivery;
use crate::refusal::Refusal;

/// Body lengths by kind, 0 to 8.
pub const LENGTHS: [usize; 9] = [7, 4, 1, 2, 2, 2, 2, 1, 0];

/// Record kinds 3 to 6 stand for the wire kinds 0 to 3.
const FIRST_DELIVERY: u8 = 3;

#[derive(Clone, Copy, PartialEq, Eq, Debug)]
pub enum Record {
    SetUp { n: u8, t: u8, writer: u8, initial: u32 },
    Write { value: u32 },
    Read { panel: u8 },
    Deliver(Delivery),
    PowerLoss { panel: u8 },
    Drain,
}

/// A schedule and the place of the next record in it.
#[derive(Clone, Debug)]
pub struct Reader<'a> {
    pub schedule: &'a [u8],
    pub place: usize,
}

impl<'a> Reader<'a> {
    pub fn new(schedule: &'a [u8]) -> Reader<'a> {
        Reader { schedule, place: 0 }
    }

    pub fn at_end(&self) -> bool {
        self.place >= self.schedule.len()
    }

    /// Refusals 15 and 16; a refusal leaves the place where it was. At the end: 16, no byte.
    pub fn next_record(&mut self) -> Result<Record, Refusal> {
        let rest = self.schedule.get(self.place..).unwrap_or_default();
        let (record, used) = read(rest)?;
        self.place += used;
        Ok(record)
    }
}

/// One record from the front and the bytes it used.
fn read(bytes: &[u8]) -> Result<(Record, usize), Refusal> {
    let kind = *bytes.first().ok_or(Refusal::CutShort)?;
    let length = *LENGTHS.get(usize::from(kind)).ok_or(Refusal::UnknownKind)?;
    let body = bytes.get(1..1 + length).ok_or(Refusal::CutShort)?;
    Ok((record(kind, body), 1 + length))
}

/// For a known kind and a body of its length.
fn record(kind: u8, body: &[u8]) -> Record {
    match (kind, body) {
        (0, &[n, t, writer, a, b, c, d]) => {
            let initial = u32::from_be_bytes([a, b, c, d]);
            Record::SetUp { n, t, writer, initial }
        }
        (1, &[a, b, c, d]) => Record::Write { value: u32::from_be_bytes([a, b, c, d]) },
        (2, &[panel]) => Record::Read { panel },
        (7, &[panel]) => Record::PowerLoss { panel },
        (_, &[sender, receiver]) => {
            Record::Deliver(Delivery { kind: kind - FIRST_DELIVERY, sender, receiver })
        }
        _ => Record::Drain,
    }
}

impl Record {
    pub fn kind(&self) -> u8 {
        match self {
            Record::SetUp { .. } => 0,
            Record::Write { .. } => 1,
            Record::Read { .. } => 2,
            Record::Deliver(message) => FIRST_DELIVERY + message.kind,
            Record::PowerLoss { .. } => 7,
            Record::Drain => 8,
        }
    }

    /// Puts the record's bytes behind those of `schedule`. A delivery's wire kind is one of 0 to 3.
    pub fn push(&self, schedule: &mut Vec<u8>) {
        schedule.push(self.kind());
        match *self {
            Record::SetUp { n, t, writer, initial } => {
                schedule.extend([n, t, writer]);
                schedule.extend(initial.to_be_bytes());
            }
            Record::Write { value } => schedule.extend(value.to_be_bytes()),
            Record::Read { panel } | Record::PowerLoss { panel } => schedule.push(panel),
            Record::Deliver(message) => schedule.extend([message.sender, message.receiver]),
            Record::Drain => (),
        }
    }
}
