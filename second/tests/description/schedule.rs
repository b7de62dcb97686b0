//! The description, "Bytes": schedule records.

use second::network::Delivery;
use second::random::Random;
use second::schedule::{Reader, Record, LENGTHS};

fn deliver(kind: u8, sender: u8, receiver: u8) -> Record {
    Record::Deliver(Delivery { kind, sender, receiver })
}

/// One record of each kind with its bytes, as the description gives them.
fn samples() -> Vec<(Record, Vec<u8>)> {
    vec![
        (Record::SetUp { n: 3, t: 1, writer: 2, initial: 700 }, vec![0, 3, 1, 2, 0, 0, 2, 0xBC]),
        (Record::Write { value: 0x0102_0304 }, vec![1, 1, 2, 3, 4]),
        (Record::Read { panel: 3 }, vec![2, 3]),
        (deliver(0, 1, 2), vec![3, 1, 2]),
        (deliver(1, 1, 2), vec![4, 1, 2]),
        (deliver(2, 255, 0), vec![5, 255, 0]),
        (deliver(3, 2, 1), vec![6, 2, 1]),
        (Record::PowerLoss { panel: 255 }, vec![7, 255]),
        (Record::Drain, vec![8]),
    ]
}

// "Their body lengths by kind, 0 to 8, are 7, 4, 1, 2, 2, 2, 2, 1, 0."
#[test]
fn lengths() {
    assert_eq!(LENGTHS, [7, 4, 1, 2, 2, 2, 2, 1, 0]);
    for (record, bytes) in samples() {
        assert_eq!(bytes.len(), 1 + LENGTHS[usize::from(record.kind())]);
    }
}

// "Schedule records: 0 set-up (n, t, writer, 4-byte initial value), 1 write (4-byte value), 2 read
// (panel), 3 WRITE0, 4 WRITE1, 5 READ, 6 PROCEED (sender, receiver), 7 power loss (panel), 8 drain."
#[test]
fn each_kind_there_and_back() {
    for (record, bytes) in samples() {
        assert_eq!(record.kind(), bytes[0]);
        let mut written = vec![99];
        record.push(&mut written);
        assert_eq!(written[1..], bytes);
        let mut reader = Reader::new(&bytes);
        assert_eq!(reader.next_record(), Ok(record));
        assert_eq!((reader.place, reader.at_end()), (bytes.len(), true));
    }
}

// "Records are read one after the other from the lent schedule, the reader keeping its place."
#[test]
fn one_after_the_other() {
    let all: Vec<u8> = samples().into_iter().flat_map(|(_, bytes)| bytes).collect();
    let mut reader = Reader::new(&all);
    let mut place = 0;
    for (record, bytes) in samples() {
        assert!(!reader.at_end());
        assert_eq!(reader.next_record(), Ok(record));
        place += bytes.len();
        assert_eq!(reader.place, place);
    }
    assert!(reader.at_end());
}

// 16: "no byte, or body cut short". The place is not moved by a refusal.
#[test]
fn cut_short() {
    for (_, bytes) in samples() {
        for length in 0..bytes.len() {
            for front in 0..3 {
                let schedule = [vec![8; front], bytes[..length].to_vec()].concat();
                let mut reader = Reader { schedule: &schedule, place: front };
                assert_eq!(reader.next_record().unwrap_err().number(), 16);
                assert_eq!(reader.place, front);
            }
        }
    }
    let mut reader = Reader { schedule: &[8], place: 5 };
    assert_eq!(reader.next_record().unwrap_err().number(), 16, "a place past the end");
}

// 15: "unknown kind byte", also where there is nothing behind it.
#[test]
fn unknown_kind() {
    for kind in 9..=255 {
        for schedule in [vec![kind], vec![kind; 20]] {
            let mut reader = Reader::new(&schedule);
            assert_eq!(reader.next_record().unwrap_err().number(), 15);
            assert_eq!(reader.place, 0);
        }
    }
}

// "Everything is one byte of kind, then a body whose length the kind fixes": any bytes that are read
// come out again when they are written.
#[test]
fn any_bytes_there_and_back() {
    let mut random = Random::new(4);
    let mut read = 0;
    for _ in 0..500 {
        let mut bytes = vec![0; random.below(60)];
        bytes.fill_with(|| random.between(0, 9));
        let (mut reader, mut written) = (Reader::new(&bytes), Vec::new());
        while let Ok(record) = reader.next_record() {
            record.push(&mut written);
            read += 1;
        }
        assert_eq!(written, bytes[..reader.place]);
    }
    assert!(read > 500);
}
