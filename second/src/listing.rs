//! The description, "The bench listing".

use crate::network::{Delivery, Network};
use crate::panel::Finish;
use crate::refusal::Refusal;
use crate::schedule::{Reader, Record};

/// The longest schedule taken, in bytes.
pub const LONGEST: usize = 65_536;

const FIRST_LINE: &[u8] = b"step kind a b answer result\n";
const TOO_LONG: &[u8] = b"too long\n";

/// The listing of a schedule, to the byte.
pub fn listing(schedule: &[u8]) -> Vec<u8> {
    if schedule.len() > LONGEST {
        return TOO_LONG.to_vec();
    }
    let mut page = Page::new();
    page.run(Reader::new(schedule));
    page.text
}

/// The last field of a line.
#[derive(Clone, Copy)]
enum Shown {
    Nothing,
    Finish(Finish),
    Drained(u32),
}

struct Page {
    text: Vec<u8>,
    step: u32,
}

impl Page {
    fn new() -> Page {
        Page { text: FIRST_LINE.to_vec(), step: 0 }
    }

    fn run(&mut self, mut reader: Reader) {
        let Some(mut network) = self.first(&mut reader) else {
            return;
        };
        while let Some(record) = self.read(&mut reader) {
            self.later(&mut network, record);
        }
    }

    /// None at the end of the input, which is no refusal, and after a line of 15 or 16.
    fn read(&mut self, reader: &mut Reader) -> Option<Record> {
        if reader.at_end() {
            return None;
        }
        let kind = reader.schedule[reader.place];
        match reader.next_record() {
            Ok(record) => Some(record),
            Err(refusal) => {
                self.line(kind, [None, None], refusal.number(), Shown::Nothing);
                None
            }
        }
    }

    /// None when the listing ends with the first record: at 15, 16, 17 or 1, or for want of a record.
    fn first(&mut self, reader: &mut Reader) -> Option<Network> {
        let record = self.read(reader)?;
        let made = match record {
            Record::SetUp { n, t, writer, initial } => Network::set_up(n, t, writer, initial),
            _ => Err(Refusal::Misplaced),
        };
        self.answer(record, made.as_ref().map(|_| Shown::Nothing).map_err(|&refusal| refusal));
        made.ok()
    }

    fn later(&mut self, network: &mut Network, record: Record) {
        let answer = match record {
            Record::SetUp { .. } => Err(Refusal::Misplaced),
            Record::Write { value } => network.step_write(value).map(Shown::Finish),
            Record::Read { panel } => network.step_read(panel).map(Shown::Finish),
            Record::Deliver(message) => network.step_deliver(message).map(Shown::Finish),
            Record::PowerLoss { panel } => network.step_power_loss(panel).map(|()| Shown::Nothing),
            Record::Drain => self.drain(network).map(Shown::Drained),
        };
        self.answer(record, answer);
    }

    /// A line for each delivery; a refused drain leaves none of them.
    fn drain(&mut self, network: &mut Network) -> Result<u32, Refusal> {
        let (length, step) = (self.text.len(), self.step);
        let count = network.step_drain(|message, finish| {
            self.answer(Record::Deliver(message), Ok(Shown::Finish(finish)));
        });
        if count.is_err() {
            self.text.truncate(length);
            self.step = step;
        }
        count
    }

    fn answer(&mut self, record: Record, answer: Result<Shown, Refusal>) {
        let (number, shown) = match answer {
            Ok(shown) => (0, shown),
            Err(refusal) => (refusal.number(), Shown::Nothing),
        };
        self.line(record.kind(), panels(record), number, shown);
    }

    fn line(&mut self, kind: u8, panels: [Option<u8>; 2], answer: u8, shown: Shown) {
        self.step += 1;
        self.decimal(self.step);
        self.field(u32::from(kind));
        for panel in panels {
            match panel {
                Some(number) => self.field(u32::from(number)),
                None => self.text.extend(b" -"),
            }
        }
        self.field(u32::from(answer));
        self.shown(shown);
        self.text.push(b'\n');
    }

    fn shown(&mut self, shown: Shown) {
        let (letter, number) = match shown {
            Shown::Finish(Finish::Write(number)) => (b'w', u32::from(number.0)),
            Shown::Finish(Finish::Read(_, value)) => (b'r', value),
            Shown::Drained(count) => (b'd', count),
            Shown::Nothing | Shown::Finish(Finish::Nothing) => {
                self.text.extend(b" -");
                return;
            }
        };
        self.text.extend([b' ', letter]);
        self.decimal(number);
    }

    fn field(&mut self, number: u32) {
        self.text.push(b' ');
        self.decimal(number);
    }

    fn decimal(&mut self, number: u32) {
        let mut digits = [0; 10];
        let mut place = digits.len();
        let mut rest = number;
        loop {
            place -= 1;
            digits[place] = b'0' + (rest % 10) as u8;
            rest /= 10;
            if rest == 0 {
                break;
            }
        }
        self.text.extend_from_slice(&digits[place..]);
    }
}

/// The one or two panel numbers of kinds 2 to 7, as given.
fn panels(record: Record) -> [Option<u8>; 2] {
    match record {
        Record::Read { panel } | Record::PowerLoss { panel } => [Some(panel), None],
        Record::Deliver(Delivery { sender, receiver, .. }) => [Some(sender), Some(receiver)],
        _ => [None, None],
    }
}
