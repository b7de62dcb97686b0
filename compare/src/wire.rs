//! Messages on the wire, by the proved crate `wire`.

use crate::proved::proved;
use second::wire::Message;

proved! {
    fn compared_read_refusal(bytes: &[u8]) -> u8;
    fn compared_read_kind(bytes: &[u8]) -> u8;
    fn compared_read_value(bytes: &[u8]) -> u32;
    fn compared_read_used(bytes: &[u8]) -> usize;
    fn compared_write_refusal(kind: u8, value: u32, area: &mut [u8]) -> u8;
    fn compared_write_used(kind: u8, value: u32, area: &mut [u8]) -> usize;
}

/// Reads one message from the front, or gives the number of the refusal.
pub fn read(bytes: &[u8]) -> Result<Message, u8> {
    match compared_read_refusal(bytes) {
        0 => Ok(Message {
            kind: compared_read_kind(bytes),
            value: compared_read_value(bytes),
            used: compared_read_used(bytes),
        }),
        number => Err(number),
    }
}

/// Writes a message to the front of the area and gives the length used, or the number of the refusal. The
/// second call writes what the first one wrote.
pub fn write(kind: u8, value: u32, area: &mut [u8]) -> Result<usize, u8> {
    match compared_write_refusal(kind, value, area) {
        0 => Ok(compared_write_used(kind, value, area)),
        number => Err(number),
    }
}
