//! Byte-wise calls on random records, and on records spoiled by one field.

use super::bytes::{NO_RUNS, RUNS};
use super::random::Random;
use super::random_records::random_record;
use super::*;
use std::collections::BTreeSet;

/// A run, seldom none. [Bytes.2] [Bytes.11]
pub(super) fn random_run(random: &mut Random) -> (u32, u32) {
    match random.below(10) {
        0 => random.pick(&NO_RUNS),
        1 => (random.below(6), random.below(6)),
        _ => {
            let (first, count, _) = random.pick(&RUNS);
            (first, count)
        }
    }
}

/// A value whose bytes are mostly taken.
pub(super) fn random_value(random: &mut Random, number: u32) -> u32 {
    let width = match number {
        0 => 0xBFFF_7FFF,
        1 => 0x9FFF,
        2..=5 => 0xF_FFFF,
        6..=9 => 0x3FFF,
        11..=15 => 0xFFFF,
        16 => 0xFF,
        19 => 0x5F,
        21 => 0x7FBD,
        _ => u32::MAX,
    };
    match random.below(4) {
        0 => random.register_value(number),
        1 => random.next(),
        _ => random.next() & width,
    }
}

/// A random record, in half of the cases an inactive one.
pub(super) fn some_record(random: &mut Random) -> Supervisor {
    let mut record = random_record(random);
    if random.flip() {
        record.csr &= !0xF;
        (record.main, record.user_sync_waiting) = (MainState::Idle, false);
        record.branches = Supervisor::fresh().branches;
    }
    if random.once_in(12) {
        record.age = Supervisor::AGE_LIMIT + 1;
    }
    record
}

#[test]
fn a_write_by_bytes_is_the_slow_one() {
    let mut random = Random(0x1357_9BDF_0246_8ACE);
    let mut met = BTreeSet::new();
    for _ in 0..200_000 {
        let mut record = some_record(&mut random);
        let before = record.clone();
        let (number, run) = (random.below(23), random_run(&mut random));
        let value = random_value(&mut random, number);
        let answer = record.write_bytes(number, run.0, run.1, value);
        let expected = plain_bytes::write(&before, number, run, value);
        assert_eq!((answer, &record), (expected.0, &expected.1), "register {number}, run {run:?}, {value:X}");
        assert_eq!(record.is_spoiled(), before.is_spoiled());
        if plain_bytes::is_run(run.0, run.1) {
            met.insert((number, run, answer));
        }
    }
    let met = |is: &dyn Fn(u32, Result<(), u8>) -> bool| met.iter().filter(|&&(n, _, answer)| is(n, answer)).count();
    assert_eq!(met(&|number, answer| number <= 19 && answer == Ok(())), 200);
    assert_eq!(met(&|number, answer| number <= 19 && answer == Err(4)), 160);
    assert_eq!(met(&|number, answer| number == Supervisor::TEST && answer == Ok(())), 10); // [Test.1]
    assert!(met(&|_, answer| answer == Err(5)) > 100);
}

#[test]
fn a_read_by_bytes_is_the_slow_one() {
    let mut random = Random(0x2468_ACE0_1357_9BDF);
    for _ in 0..60_000 {
        let mut record = some_record(&mut random);
        let before = record.clone();
        let number = if random.once_in(3) { 17 + random.below(2) } else { random.below(23) };
        let run = random_run(&mut random);
        let answer = record.read_bytes(number, run.0, run.1);
        assert_eq!((answer, record), plain_bytes::read(&before, number, run), "register {number}, run {run:?}");
    }
}

#[test]
fn the_plain_calls_are_the_run_of_four() {
    let mut random = Random(0x0F0F_1E1E_2D2D_3C3C);
    for _ in 0..60_000 {
        let before = some_record(&mut random);
        let (mut plain, mut four) = (before.clone(), before);
        let number = random.below(23);
        let value = random_value(&mut random, number);
        // [Bytes.2]
        assert_eq!(plain.write_register(number, value), four.write_bytes(number, 0, 4, value));
        assert_eq!(plain, four);
        assert_eq!(plain.read_register(number), four.read_bytes(number, 0, 4));
        assert_eq!(plain, four);
    }
}

#[test]
fn a_plain_call_never_gets_7() {
    let mut random = Random(0x5A5A_A5A5_C3C3_3C3C);
    for _ in 0..20_000 {
        let mut record = some_record(&mut random);
        let number = random.below(24);
        assert_ne!(record.write_register(number, random.next()), Err(decline::RUN)); // [Bytes.11]
        assert_ne!(record.read_register(number), Err(decline::RUN));
    }
}

#[test]
fn the_bytes_of_a_register_read_one_by_one() {
    // BYTE(3) first latches a scaler, so that the four reads show one value. [Bytes.5a]
    let mut random = Random(0x7777_1111_3333_5555);
    for _ in 0..20_000 {
        let mut record = random_record(&mut random);
        let number = random.below(21);
        let whole = record.clone().read_register(number).unwrap();
        let sum: u32 = [3, 2, 1, 0].iter().map(|&byte| record.read_bytes(number, byte, 1).unwrap()).sum();
        assert_eq!(sum, whole);
    }
}
