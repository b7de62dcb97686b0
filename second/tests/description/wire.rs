//! The description, "Bytes": messages on the wire.

use second::random::Random;
use second::wire::{read, write, Message};

fn read_number(bytes: &[u8]) -> Option<u8> {
    read(bytes).err().map(|refusal| refusal.number())
}

/// Writes into an area of this length; a refusal must leave all of it, a message what is behind it.
fn write_into(kind: u8, value: u32, length: usize) -> Result<Vec<u8>, u8> {
    let mut area = vec![0xC3; length];
    match write(kind, value, &mut area) {
        Ok(used) => {
            assert_eq!(area[used..], vec![0xC3; length - used], "behind the message");
            area.truncate(used);
            Ok(area)
        }
        Err(refusal) => {
            assert_eq!(area, vec![0xC3; length], "a refusal alters no buffer");
            Err(refusal.number())
        }
    }
}

// "On the wire: 0 WRITE0 and 1 WRITE1 with the value in 4 bytes; 2 READ and 3 PROCEED with none."
// "numbers are high byte first"
#[test]
fn bytes_of_messages() {
    assert_eq!(write_into(0, 0x0102_0304, 9), Ok(vec![0, 1, 2, 3, 4]));
    assert_eq!(write_into(1, 0xFFFE_0000, 5), Ok(vec![1, 0xFF, 0xFE, 0, 0]));
    assert_eq!(write_into(2, 0, 9), Ok(vec![2]));
    assert_eq!(write_into(3, 0, 1), Ok(vec![3]));
}

// "Reading takes one message from the front and says how many bytes it used."
#[test]
fn reading_from_the_front() {
    let write1 = Message { kind: 1, value: 0x0000_028A, used: 5 };
    assert_eq!(read(&[1, 0, 0, 2, 0x8A]), Ok(write1));
    assert_eq!(read(&[1, 0, 0, 2, 0x8A, 2, 3, 99]), Ok(write1));
    assert_eq!(read(&[2, 0, 1]), Ok(Message { kind: 2, value: 0, used: 1 }));
    assert_eq!(read(&[3, 77, 77, 77, 77]), Ok(Message { kind: 3, value: 0, used: 1 }));
}

// 15: "unknown kind byte". 16: "no byte, or body cut short". All inputs of one byte and of none.
#[test]
fn one_byte_and_none() {
    assert_eq!(read_number(&[]), Some(16));
    for byte in 0..=255 {
        let expected = match byte {
            0 | 1 => Some(16),
            2 | 3 => None,
            _ => Some(15),
        };
        assert_eq!(read_number(&[byte]), expected, "byte {byte}");
    }
}

// 16: "body cut short": each kind at each length.
#[test]
fn each_kind_at_each_length() {
    for kind in 0..=255u8 {
        for length in 1..=8 {
            let mut bytes = vec![0; length];
            bytes[0] = kind;
            let expected = match kind {
                0 | 1 if length < 5 => Some(16),
                0..=3 => None,
                _ => Some(15),
            };
            assert_eq!(read_number(&bytes), expected, "kind {kind}, {length} bytes");
        }
    }
}

// 3: "byte area shorter than the message". 15: "unknown kind byte (length 1 for number 3), or a READ or
// PROCEED to be written with a value other than zero". 3 is tried before 15.
#[test]
fn writing_at_each_length() {
    for kind in 0..=255u8 {
        for value in [0, 1, u32::MAX] {
            for length in 0..=7 {
                let number = write_into(kind, value, length).err();
                let expected = match kind {
                    0 | 1 => (length < 5).then_some(3),
                    _ if length == 0 => Some(3),
                    2 | 3 => (value != 0).then_some(15),
                    _ => Some(15),
                };
                assert_eq!(number, expected, "kind {kind}, value {value}, {length} bytes");
            }
        }
    }
}

// "Everything is one byte of kind, then a body whose length the kind fixes": what is written is read
// again, and what is read is written again.
#[test]
fn there_and_back() {
    let mut random = Random::new(3);
    for _ in 0..2000 {
        let kind = random.between(0, 3);
        let value = if kind < 2 { random.value() } else { 0 };
        let bytes = write_into(kind, value, 5).unwrap();
        assert_eq!(read(&bytes), Ok(Message { kind, value, used: bytes.len() }));

        let mut noise = [0; 6];
        random.fill(&mut noise);
        noise[0] %= 5;
        if let Ok(Message { kind, value, used }) = read(&noise) {
            assert_eq!(write_into(kind, value, 6).as_deref(), Ok(&noise[..used]));
        } else {
            assert_eq!(noise[0], 4);
        }
    }
}
