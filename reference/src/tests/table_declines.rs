//! The declines of the generator, their order, and what each leaves. [Table.8a] [Table.8b]

use super::declines::{active, spoiled, ways_to_be_active};
use super::random::Random;
use super::table::{filled, usable_words, SHIPPED_WORDS};
use super::*;
use std::collections::BTreeSet;

const LENGTHS: [usize; 7] = [0, 1, 12, 4_095, MEMORY_WORDS, 4_097, 8_192];
const OTHER_LENGTHS: [usize; 6] = [0, 1, 12, 4_095, 4_097, 8_192];

/// The last four bits of a word: those that are taken, and those that get 8. [Table.8b]
const TAKEN: [u16; 3] = [0x3, 0x5, 0x9];
const NO_OK: [u16; 8] = [0x0, 0x2, 0x4, 0x6, 0x8, 0xA, 0xC, 0xE];
const NO_CLASS: [u16; 1] = [0x1];
const TWO_CLASSES: [u16; 3] = [0x7, 0xB, 0xD];
const THREE_CLASSES: [u16; 1] = [0xF];

fn bad_bits() -> Vec<u16> {
    [&NO_OK[..], &NO_CLASS, &TWO_CLASSES, &THREE_CLASSES].concat()
}

/// The shipped words, but for one.
fn with(at: usize, word: u16) -> [u16; INPUTS] {
    let mut words = SHIPPED_WORDS;
    words[at] = word;
    words
}

fn all_bad() -> [u16; INPUTS] {
    std::array::from_fn(|at| SHIPPED_WORDS[at] & !1)
}

/// Inactive, with something in every field but the branches, in which it would be active.
fn standing() -> Supervisor {
    let free = csr::CONTROLS & !(csr::GO | csr::PAUSE_AND_SYNC | csr::FORCE_SYNC);
    Supervisor {
        factors: [1, 2, 3, 4, 5, 6, 7, 8],
        counters: [8, 7, 6, 5, 4, 3, 2, 1],
        csr: free | csr::STATUS & !csr::WRITE_ERROR,
        control: 0x9FFF,
        sync_interval: 9,
        t5: Count20(10),
        t1: Count40(11),
        t2: Count40(12),
        t3: Count40(13),
        t4: Count40(14),
        sync_count: 15,
        age: 16,
        clear_count: 17,
        blind: 2,
        assign: 0x18,
        roc_enable: 19,
        scalers: [20, 21],
        latches: [22, 23],
        main: MainState::Idle,
        class: 3,
        code: 7,
        accept_pattern: 0xFF,
        late: true,
        raised: raised::ALL,
        user_sync_waiting: false,
        kept_lines: 24,
        latched: true,
        kept_acknowledges: 25,
        test: 26,
        branches: Supervisor::fresh().branches,
    }
}

/// The answer; a declined fill must leave the memory, and the record but for the status bit of 4.
#[track_caller]
fn fill(record: &Supervisor, length: usize, words: &[u16; INPUTS]) -> Result<(), u8> {
    let mut memory = vec![0x0777; length];
    let mut after = record.clone();
    let answer = after.fill_memory(&mut memory, words);
    let status = if answer == Err(4) { csr::WRITE_ERROR } else { 0 };
    assert_eq!(after, Supervisor { csr: record.csr | status, ..record.clone() });
    match answer {
        Ok(()) => assert_eq!(memory, filled(words)),
        Err(_) => assert_eq!(memory, vec![0x0777; length]),
    }
    answer
}

#[test]
fn fill_1() {
    let spoiled_and_active = Supervisor { csr: csr::GO, ..spoiled() };
    for record in [spoiled(), spoiled_and_active, Supervisor { blind: 3, ..standing() }] {
        for length in LENGTHS {
            for words in [SHIPPED_WORDS, with(11, 0), all_bad()] {
                assert_eq!(fill(&record, length, &words), Err(1)); // before 2, 4 and 8
            }
        }
    }
}

#[test]
fn fill_2() {
    for record in [Supervisor::fresh(), standing(), active()].into_iter().chain(ways_to_be_active()) {
        for length in OTHER_LENGTHS {
            for words in [SHIPPED_WORDS, with(0, 0x0118), all_bad()] {
                assert_eq!(fill(&record, length, &words), Err(2), "{length} words");
                // before 4 and 8
            }
        }
    }
}

#[test]
fn fill_4() {
    let running = Supervisor { csr: standing().csr | csr::GO, ..standing() };
    for way in ways_to_be_active().into_iter().chain([running]) {
        for words in [SHIPPED_WORDS, with(0, 0x0118), with(11, 0x08C1), all_bad()] {
            assert_eq!(fill(&way, MEMORY_WORDS, &words), Err(4)); // before 8
                                                                  // The status bit may stand already, and the other error bit stays as it is.
            for status in [csr::WRITE_ERROR, csr::READ_ERROR, csr::STATUS] {
                let marked = Supervisor { csr: way.csr | status, ..way.clone() };
                assert_eq!(fill(&marked, MEMORY_WORDS, &words), Err(4));
            }
        }
    }
    // Both modes and all that waits leave it at that: test mode opens no memory. [Test.2]
    let modes = Supervisor { csr: csr::GO | csr::MODES, test: u32::MAX, ..Supervisor::fresh() };
    assert_eq!(fill(&modes, MEMORY_WORDS, &SHIPPED_WORDS), Err(4));
}

#[test]
fn fill_8() {
    let record = standing();
    for (at, shipped) in SHIPPED_WORDS.into_iter().enumerate() {
        for bad in bad_bits() {
            for rest in [0x0000, shipped & 0xFFF0, 0xFFF0] {
                assert_eq!(fill(&record, MEMORY_WORDS, &with(at, rest | bad)), Err(8), "input {}, {bad:X}", at + 1);
            }
        }
        for taken in TAKEN {
            for rest in [0x0000, shipped & 0xFFF0, 0xFFF0] {
                assert_eq!(fill(&record, MEMORY_WORDS, &with(at, rest | taken)), Ok(()), "input {}", at + 1);
            }
        }
    }
    assert_eq!(TAKEN.len() + bad_bits().len(), 16);
    assert_eq!(fill(&record, MEMORY_WORDS, &all_bad()), Err(8));
    assert_eq!(fill(&record, MEMORY_WORDS, &[0; INPUTS]), Err(8));
    assert_eq!(fill(&record, MEMORY_WORDS, &[0xFFFF; INPUTS]), Err(8));
}

#[test]
fn stricter_than_a_tick() {
    // A tick takes the lowest of several classes; the generator takes no such word. [Memory.3] [Table.8b]
    for bits in TWO_CLASSES.into_iter().chain(THREE_CLASSES) {
        let mut unit = Unit::running(0x0150 | bits, &[], csr::GO);
        unit.accept();
        assert_eq!(fill(&Supervisor::fresh(), MEMORY_WORDS, &with(0, 0x0150 | bits)), Err(8));
    }
    // And a memory write takes any word. [Declines.4d]
    let mut unit = Unit::fresh(0);
    assert_eq!(unit.record.write_memory(&mut unit.memory, 1, 0x000E), Ok(()));
}

#[test]
fn inactive_whatever_else_stands() {
    // What is no part of "active" declines nothing. [Active.1]
    let fresh = Supervisor::fresh();
    for bits in [0x001F_0FF2, 0x001F_0FEE, csr::MODES, csr::HOLD, csr::TEST_MODE, csr::STATUS] {
        let record = Supervisor { csr: bits, ..fresh.clone() };
        assert_eq!(fill(&record, MEMORY_WORDS, &SHIPPED_WORDS), Ok(()), "CSR {bits:X}");
    }
    for record in [
        standing(),
        Supervisor { blind: 2, ..fresh.clone() },
        Supervisor { kept_lines: u32::MAX, kept_acknowledges: u32::MAX, latched: true, ..fresh.clone() },
        Supervisor { test: u32::MAX, ..fresh.clone() },
        Supervisor { age: 5, class: 3, code: 7, accept_pattern: 0xFF, late: true, raised: 0x1F, ..fresh.clone() },
        Supervisor { clear_count: 255, sync_count: 65_534, scalers: [u32::MAX; 2], ..fresh.clone() },
    ] {
        assert_eq!(fill(&record, MEMORY_WORDS, &SHIPPED_WORDS), Ok(()));
        assert_eq!(fill(&record, MEMORY_WORDS, &with(5, 0x2061)), Err(8));
    }
}

#[test]
fn the_declines_of_a_memory_write() {
    // The same answer and the same record as of a write to a place that is there, wherever that is declined, and with
    // good words wherever it is taken. [Table.8a]
    let records = [Supervisor::fresh(), active(), spoiled()].into_iter().chain(ways_to_be_active());
    let mut random = Random(0x7AB1_E000_0000_0005);
    let mut met = BTreeSet::new();
    for record in records {
        for length in LENGTHS {
            let (mut one, mut other) = (record.clone(), record.clone());
            let mut memory = vec![0x0777; length];
            let write = one.write_memory(&mut memory.clone(), random.below(4_096), 0x1234);
            let words = if write.is_ok() { usable_words(&mut random) } else { all_bad() };
            assert_eq!(other.fill_memory(&mut memory, &words), write);
            assert_eq!(one, other);
            met.insert(write);
        }
    }
    assert_eq!(met, BTreeSet::from([Ok(()), Err(1), Err(2), Err(4)]));
}

#[test]
fn random_words_on_random_lengths() {
    let mut random = Random(0x7AB1_E000_0000_0006);
    let mut met = BTreeSet::new();
    for _ in 0..3_000 {
        let mut words = usable_words(&mut random);
        let bad = if random.flip() { 0 } else { random.below(4) };
        for _ in 0..bad {
            words[random.below(12) as usize] = random.next() as u16;
        }
        let length = if random.once_in(4) { random.pick(&LENGTHS) } else { MEMORY_WORDS };
        let record = random.pick(&[0, csr::GO, csr::STATUS, 1 << 14]);
        let record = Supervisor { csr: record, ..Supervisor::fresh() };
        let good = |word: &u16| word & 1 == 1 && [1, 2, 4].contains(&(word >> 1 & 7));
        let expected = if record.csr == 1 << 14 {
            Err(1)
        } else if length != MEMORY_WORDS {
            Err(2)
        } else if record.csr == csr::GO {
            Err(4)
        } else if !words.iter().all(good) {
            Err(8)
        } else {
            Ok(())
        };
        assert_eq!(fill(&record, length, &words), expected, "{words:X?}");
        met.insert(expected);
    }
    assert_eq!(met.len(), 5);
}
