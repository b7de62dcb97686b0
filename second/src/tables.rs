//! Tables as bytes and any bytes as tables, in form or not, so that programs can be compared on them.
//!
//! A panel: n, t, writer, number; the initial value; write numbers; read numbers; holds of a flag and a
//! value; lines of a length and 100 numbers; stage and sn; the other values of the history. A network:
//! its panels; the down flags; channels by sender, then receiver, each two slots of a flag and a value,
//! the READs and the PROCEEDs. Numbers are high byte first; a flag other than zero is true.

use crate::network::{Channel, Network, Slot};
use crate::panel::{Held, Line, Operation, Panel, ReadNumber, WriteNumber};
use crate::PANELS;

pub const PANEL_BYTES: usize = 1566;
pub const NETWORK_BYTES: usize = PANELS * PANEL_BYTES + PANELS + PANELS * PANELS * 12;

pub fn panel_to_bytes(panel: &Panel) -> [u8; PANEL_BYTES] {
    let mut bytes = Vec::with_capacity(PANEL_BYTES);
    push_panel(panel, &mut bytes);
    bytes.try_into().expect("a panel's length")
}

pub fn panel_from_bytes(bytes: &[u8; PANEL_BYTES]) -> Panel {
    take_panel(&mut Source { rest: bytes })
}

pub fn network_to_bytes(network: &Network) -> [u8; NETWORK_BYTES] {
    let mut bytes = Vec::with_capacity(NETWORK_BYTES);
    for panel in &network.panels {
        push_panel(panel, &mut bytes);
    }
    bytes.extend(network.down.map(u8::from));
    for channel in network.channels.iter().flatten() {
        for slot in channel.writes {
            push_flagged(slot.full, slot.value, &mut bytes);
        }
        bytes.extend([channel.reads, channel.proceeds]);
    }
    bytes.try_into().expect("a network's length")
}

pub fn network_from_bytes(bytes: &[u8; NETWORK_BYTES]) -> Network {
    let mut source = Source { rest: bytes };
    let mut network = Network::ZERO;
    for panel in &mut network.panels {
        *panel = take_panel(&mut source);
    }
    for down in &mut network.down {
        *down = source.flag();
    }
    for channel in network.channels.iter_mut().flatten() {
        *channel = take_channel(&mut source);
    }
    network
}

fn push_panel(panel: &Panel, bytes: &mut Vec<u8>) {
    bytes.extend([panel.n, panel.t, panel.writer, panel.number]);
    bytes.extend(panel.history[0].to_be_bytes());
    bytes.extend(panel.w.map(|x| x.0));
    bytes.extend(panel.r.map(|x| x.0));
    for held in panel.held {
        push_flagged(held.full, held.value, bytes);
    }
    for line in &panel.lines {
        bytes.push(line.len);
        bytes.extend(line.sn.map(|x| x.0));
    }
    bytes.extend([panel.operation.stage, panel.operation.sn.0]);
    bytes.extend(panel.history[1..].iter().flat_map(|v| v.to_be_bytes()));
}

fn push_flagged(full: bool, value: u32, bytes: &mut Vec<u8>) {
    bytes.push(u8::from(full));
    bytes.extend(value.to_be_bytes());
}

/// The fields stand in the order of the bytes.
fn take_panel(source: &mut Source) -> Panel {
    let [n, t, writer, number] = source.bytes();
    let mut history = [0; 201];
    history[0] = source.value();
    let w = source.bytes().map(WriteNumber);
    let r = source.bytes().map(ReadNumber);
    let held = [(); PANELS].map(|()| Held { full: source.flag(), value: source.value() });
    let lines =
        [(); PANELS].map(|()| Line { len: source.byte(), sn: source.bytes().map(WriteNumber) });
    let operation = Operation { stage: source.byte(), sn: WriteNumber(source.byte()) };
    history[1..].fill_with(|| source.value());
    Panel { n, t, writer, number, w, r, history, held, lines, operation }
}

fn take_channel(source: &mut Source) -> Channel {
    let writes = [(); 2].map(|()| Slot { full: source.flag(), value: source.value() });
    Channel { writes, reads: source.byte(), proceeds: source.byte() }
}

/// Bytes taken from the front; there are always enough, by the lengths above.
struct Source<'a> {
    rest: &'a [u8],
}

impl Source<'_> {
    fn bytes<const N: usize>(&mut self) -> [u8; N] {
        let (front, rest) = self.rest.split_at(N);
        self.rest = rest;
        std::array::from_fn(|place| front[place])
    }

    fn byte(&mut self) -> u8 {
        let [byte] = self.bytes();
        byte
    }

    fn flag(&mut self) -> bool {
        self.byte() != 0
    }

    fn value(&mut self) -> u32 {
        u32::from_be_bytes(self.bytes())
    }
}
