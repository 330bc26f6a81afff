//! The declines of memory write and read, their order, and what each leaves. [Declines.4a]–[Declines.4d]

use super::declines::{active, spoiled, ways_to_be_active};
use super::*;

#[test]
fn memory_1() {
    for words in [0, 4_096, 4_097] {
        let mut memory = vec![7; words];
        let mut record = spoiled();
        assert_eq!(record.write_memory(&mut memory, 9_999, 1), Err(1)); // [Declines.4a]
        assert_eq!(record.read_memory(&memory, 9_999), Err(1));
        assert_eq!(record, spoiled());
        assert_eq!(memory, vec![7; words]);
    }
}

#[test]
fn memory_2() {
    for words in [0, 1, 4_095, 4_097, 8_192] {
        for (mut record, place) in [(Supervisor::fresh(), 0), (Supervisor::fresh(), 4_096), (active(), 0)] {
            let before = record.clone();
            let mut memory = vec![7; words];
            assert_eq!(record.write_memory(&mut memory, place, 1), Err(2)); // [Declines.4b]
            assert_eq!(record.read_memory(&memory, place), Err(2));
            assert_eq!(record, before);
            assert_eq!(memory, vec![7; words]);
        }
    }
}

#[test]
fn memory_3() {
    for place in [4_096, 4_097, 0x1_0000, u32::MAX] {
        for mut record in [Supervisor::fresh(), active()] {
            let before = record.clone();
            let mut memory = vec![7; MEMORY_WORDS];
            assert_eq!(record.write_memory(&mut memory, place, 1), Err(3)); // [Declines.4c]
            assert_eq!(record.read_memory(&memory, place), Err(3));
            assert_eq!(record, before, "3 comes before 4");
            assert_eq!(memory, vec![7; MEMORY_WORDS]);
        }
    }
}

#[test]
fn memory_4() {
    let mut memory = vec![7; MEMORY_WORDS];
    for way in ways_to_be_active() {
        let mut record = way.clone();
        assert_eq!(record.write_memory(&mut memory, 0, 1), Err(4)); // [Declines.4d]
        assert_eq!(record, Supervisor { csr: way.csr | csr::WRITE_ERROR, ..way.clone() });
        let mut record = way.clone();
        assert_eq!(record.read_memory(&memory, 4_095), Err(4));
        assert_eq!(record, Supervisor { csr: way.csr | csr::READ_ERROR, ..way.clone() });
    }
    assert_eq!(memory, vec![7; MEMORY_WORDS]);
}

#[test]
fn memory_taken() {
    let mut record = Supervisor::fresh();
    let mut memory = vec![0; MEMORY_WORDS];
    for place in [0, 1, 2_048, 4_095] {
        assert_eq!(record.write_memory(&mut memory, place, 0xBEE0 | place as u16), Ok(()));
        assert_eq!(record.read_memory(&memory, place), Ok(0xBEE0 | place as u16));
    }
    assert_eq!(memory.iter().filter(|&&word| word != 0).count(), 4);
    assert_eq!(record, Supervisor::fresh());
}
