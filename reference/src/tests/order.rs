//! Two writes to different settings or places, in either order. [Order.1]–[Order.3]

use super::bytes::{KINDS, NO_RUNS, RUNS};
use super::declines::{active, spoiled, ways_to_be_active};
use super::random::Random;
use super::random_bytes::{random_run, random_value, some_record};
use super::*;
use std::collections::BTreeSet;

/// A write to a register, plain or by a run of bytes, or to a memory place.
#[derive(Clone, Copy, Debug)]
pub(super) enum Write {
    Plain(u32, u32),
    Bytes(u32, (u32, u32), u32),
    Place(u32, u16),
}

type Answers = [Result<(), u8>; 2];

impl Write {
    fn run(self, record: &mut Supervisor, memory: &mut [u16]) -> Result<(), u8> {
        match self {
            Write::Plain(number, value) => record.write_register(number, value),
            Write::Bytes(number, (first, count), value) => record.write_bytes(number, first, count, value),
            Write::Place(place, word) => record.write_memory(memory, place, word),
        }
    }
}

/// What the two writes are answered and leave, the first of them first.
pub(super) fn in_order(record: &Supervisor, memory: &[u16], [a, b]: [Write; 2]) -> (Answers, Supervisor, Vec<u16>) {
    let (mut record, mut memory) = (record.clone(), memory.to_vec());
    let answers = [a.run(&mut record, &mut memory), b.run(&mut record, &mut memory)];
    (answers, record, memory)
}

/// The answers, which must be those of each write alone, in both orders, and so must be what is left. [Order.2]
#[track_caller]
fn either(record: &Supervisor, memory: &[u16], [a, b]: [Write; 2]) -> Answers {
    let alone = [a, b].map(|write| write.run(&mut record.clone(), &mut memory.to_vec()));
    let forth = in_order(record, memory, [a, b]);
    let (answers, left, words) = in_order(record, memory, [b, a]);
    assert_eq!(forth, ([answers[1], answers[0]], left, words), "{a:?} and {b:?} on {record:?}");
    assert_eq!(forth.0, alone, "{a:?} and {b:?} on {record:?}");
    alone
}

/// Every setting other than 0, and counters that their factors do not tell.
fn set_up() -> Supervisor {
    let mut unit = Unit::fresh(0);
    for (number, stood, _) in KINDS {
        unit.write(number, stood);
    }
    unit.record.counters = [1, 2, 3, 0xF_FFFF, 5, 6, 0x3FFF, 0];
    unit.record
}

/// Fresh, set up, with a status bit, active, active in test mode, spoiled.
fn records() -> Vec<Supervisor> {
    let set_up = set_up();
    let with = |bits: u32| Supervisor { csr: set_up.csr | bits, ..set_up.clone() };
    let odd = Supervisor { assign: 0x40, ..set_up.clone() };
    vec![
        Supervisor::fresh(),
        set_up.clone(),
        with(csr::WRITE_ERROR),
        active(),
        with(csr::GO),
        with(csr::GO | csr::TEST_MODE),
        with(csr::GO | csr::MODES | csr::WRITE_ERROR),
        spoiled(),
        odd,
    ]
}

/// Writes to a register of 1–16: plain ones and every run, with values that are taken and ones that are not, and what
/// is no run.
fn writes(number: u32) -> Vec<Write> {
    let (_, stood, written) = KINDS.into_iter().find(|&(kind, ..)| kind == number).unwrap();
    let values = [0, written, stood ^ 1 << 30, u32::MAX];
    let mut writes: Vec<Write> = values.map(|value| Write::Plain(number, value)).into();
    for (first, count, _) in RUNS {
        writes.extend(values.map(|value| Write::Bytes(number, (first, count), value)));
    }
    writes.extend(NO_RUNS[..9].iter().map(|&run| Write::Bytes(number, run, written)));
    writes
}

#[test]
fn two_settings() {
    let pairs = || (1..=16).flat_map(|one| (one + 1..=16).map(move |other| (one, other)));
    for record in records() {
        for (one, other) in pairs() {
            let mut met = BTreeSet::new();
            for a in writes(one) {
                met.extend(writes(other).into_iter().map(|b| either(&record, &[], [a, b])));
            }
            assert!(met.len() > 1 || record.is_spoiled());
            let taken = met.contains(&[Ok(()), Ok(())]);
            assert_eq!(taken, !record.is_active() && !record.is_spoiled(), "{one} and {other}");
        }
    }
}

#[test]
fn both_values_stand() {
    for (one, _, a) in KINDS.into_iter().filter(|&(number, ..)| number <= 16) {
        for (other, _, b) in KINDS.into_iter().filter(|&(number, ..)| number <= 16 && number != one) {
            let writes = [Write::Plain(one, a), Write::Bytes(other, (0, 4), b)];
            let (answers, mut record, _) = in_order(&set_up(), &[], writes);
            assert_eq!(answers, [Ok(()), Ok(())]);
            assert_eq!((record.read_register(one), record.read_register(other)), (Ok(a), Ok(b)));
        }
    }
}

#[test]
fn two_factors_with_and_without_byte_3() {
    let (with, without) = (Write::Bytes(2, (2, 2), 0x0107), Write::Bytes(9, (0, 3), 0x0200));
    let record = set_up();
    assert_eq!(either(&record, &[], [with, without]), [Ok(()), Ok(())]);
    let (_, left, _) = in_order(&record, &[], [without, with]);
    let mut expected = record;
    (expected.factors[0], expected.counters[0]) = (0xA_0107, 0xA_0107); // [Bytes.3a] [Bytes.4a]
    expected.factors[7] = 0x0202;
    assert_eq!(left, expected);
}

#[test]
fn while_active() {
    for way in ways_to_be_active() {
        let tests = Supervisor { csr: way.csr | csr::TEST_MODE, ..way.clone() };
        for number in 2..=16 {
            let (control, other) = (Write::Plain(1, 0x8AAA), Write::Plain(number, 1));
            assert_eq!(either(&way, &[], [control, other]), [Err(4), Err(4)]); // [Declines.2c]
            let (_, left, _) = in_order(&way, &[], [other, control]);
            assert_eq!(left, Supervisor { csr: way.csr | csr::WRITE_ERROR, ..way.clone() });
            // Control is open in test mode, whether or not a decline came before it. [Test.2]
            assert_eq!(either(&tests, &[], [control, other]), [Ok(()), Err(4)]);
            let (_, left, _) = in_order(&tests, &[], [other, control]);
            assert_eq!(left, Supervisor { csr: tests.csr | csr::WRITE_ERROR, control: 0x8AAA, ..tests.clone() });
            let bad = Write::Plain(1, 0x2000);
            assert_eq!(either(&tests, &[], [bad, other]), [Err(5), Err(4)]);
        }
    }
}

const PLACES: [u32; 12] = [0, 1, 2_047, 2_048, 4_094, 4_095, 4_096, 4_097, 8_191, 65_536, 69_631, u32::MAX];
const LENGTHS: [usize; 6] = [0, 1, 4_095, MEMORY_WORDS, 4_097, 8_192];

#[test]
fn two_places() {
    for record in records() {
        for words in LENGTHS {
            let memory = vec![0x0777; words];
            let mut met = BTreeSet::new();
            for (at, one) in PLACES.into_iter().enumerate() {
                let others = PLACES[at + 1..].iter();
                met.extend(
                    others.map(|&other| {
                        either(&record, &memory, [Write::Place(one, 0x1234), Write::Place(other, 0xFEDC)])
                    }),
                );
            }
            let all_taken = met.contains(&[Ok(()), Ok(())]);
            assert_eq!(all_taken, words == MEMORY_WORDS && !record.is_active() && !record.is_spoiled());
        }
    }
    let (_, left, words) = in_order(&set_up(), &[7; MEMORY_WORDS], [Write::Place(4_095, 1), Write::Place(0, 2)]);
    assert_eq!(left, set_up());
    assert_eq!((words[0], words[1], words[4_094], words[4_095]), (2, 7, 7, 1));
}

#[test]
fn a_setting_and_a_place() {
    let settings: Vec<Write> = (1..=16).flat_map(writes).step_by(3).collect();
    let mut met = BTreeSet::new();
    for (record, words) in records().iter().flat_map(|record| LENGTHS.map(|words| (record, words))) {
        let memory = vec![0x0777; words];
        for (at, &setting) in settings.iter().enumerate() {
            // One of the places that are there, one beyond.
            for place in [PLACES[at % 6], PLACES[6 + at % 6]] {
                met.insert(either(record, &memory, [setting, Write::Place(place, 0x1234)]));
            }
        }
    }
    // Taken, 4, 5 or 7 beside taken, 2, 3 or 4, but for 4 beside taken; and 1 beside 1. [Declines.2a] [Declines.4a]
    assert_eq!(met.len(), 16);
    assert!(!met.contains(&[Err(4), Ok(())]) && met.contains(&[Err(1), Err(1)]));
    // Only control, in test mode. [Test.2]
    assert!(met.contains(&[Ok(()), Err(4)]));
}

#[test]
fn random_pairs_on_random_records() {
    let mut random = Random(0x2468_ACE0_1357_9BDF);
    let mut met = BTreeSet::new();
    for _ in 0..300_000 {
        let record = some_record(&mut random);
        let one = 1 + random.below(16);
        let other = 1 + (one + random.below(15)) % 16;
        let [a, b] = [one, other].map(|number| {
            let (run, value) = (random_run(&mut random), random_value(&mut random, number));
            if random.flip() {
                Write::Plain(number, value)
            } else {
                Write::Bytes(number, run, value)
            }
        });
        let answers = either(&record, &[], [a, b]);
        met.insert((one.min(other), one.max(other), answers.iter().filter(|answer| answer.is_err()).count()));
    }
    // Each pair of registers with both taken, one declined and both declined.
    assert_eq!(met.len(), 3 * 120);
}
