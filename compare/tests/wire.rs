//! Messages on the wire: the proved calls and the second program agree, in result and area.

use second::random::Random;
use second::refusal::Refusal;
use second::wire::Message;

/// Both read the same, and from the front alone: what stands behind a message does not matter.
fn read_alike(bytes: &[u8]) {
    let expected = second::wire::read(bytes).map_err(Refusal::number);
    assert_eq!(compare::wire::read(bytes), expected, "reading {bytes:02x?}");
}

/// Both write the same, the whole area compared.
fn write_alike(kind: u8, value: u32, area: &[u8]) {
    let (mut first, mut second) = (area.to_vec(), area.to_vec());
    let told = compare::wire::write(kind, value, &mut first);
    let expected = second::wire::write(kind, value, &mut second).map_err(Refusal::number);
    assert_eq!(told, expected, "writing kind {kind} value {value} into {area:02x?}");
    assert_eq!(first, second, "the area after kind {kind} value {value} into {area:02x?}");
}

/// "Byte 4 on the wire: 15", and every other byte alone.
#[test]
fn every_single_byte() {
    read_alike(&[]);
    for byte in 0..=255 {
        read_alike(&[byte]);
    }
    assert_eq!(compare::wire::read(&[4]), Err(15));
    assert_eq!(compare::wire::read(&[]), Err(16));
    assert_eq!(compare::wire::read(&[2]), Ok(Message { kind: 2, value: 0, used: 1 }));
}

/// Every kind byte with every length from none to past the longest message.
#[test]
fn every_kind_at_every_length() {
    let mut random = Random::new(1);
    for kind in 0..=255u8 {
        for length in 0..=9 {
            let mut bytes = vec![0; length];
            random.fill(&mut bytes);
            for value in [0, 1, 650, 0x0102_0304, u32::MAX] {
                write_alike(kind, value, &bytes);
            }
            if let Some(first) = bytes.first_mut() {
                *first = kind;
            }
            read_alike(&bytes);
        }
    }
}

/// Long areas and long inputs, and a message in front of others.
#[test]
fn two_hundred_thousand_at_random() {
    let seed = 20_160_211;
    println!("seed {seed}");
    let mut random = Random::new(seed);
    for turn in 0..200_000 {
        let longest = if turn % 100 == 0 { 3000 } else { 12 };
        let mut bytes = vec![0; random.below(longest)];
        random.fill(&mut bytes);
        if let Some(first) = bytes.first_mut().filter(|_| turn % 3 != 0) {
            *first %= 6;
        }
        read_alike(&bytes);
        let (kind, value) = (random.byte() % 6, random.value());
        write_alike(kind, if turn % 2 == 0 { 0 } else { value }, &bytes);
    }
}

/// What one program writes the other reads back as the same message.
#[test]
fn written_by_one_and_read_by_the_other() {
    let mut random = Random::new(7);
    for _ in 0..20_000 {
        let kind = random.byte() % 4;
        let value = if kind < 2 { random.value() } else { 0 };
        let mut area = [0xEE; 7];
        let used = compare::wire::write(kind, value, &mut area).unwrap();
        assert_eq!(second::wire::read(&area), Ok(Message { kind, value, used }));
        let mut area = [0xEE; 7];
        let used = second::wire::write(kind, value, &mut area).unwrap();
        assert_eq!(compare::wire::read(&area), Ok(Message { kind, value, used }));
    }
}
