//! Random pairs of writes for both orders: mostly those of which the papers claim that the order does not matter,
//! seldom others. [Order.2]

use crate::byte_calls::{self, width, RUNS};
use crate::numbers::*;
use crate::random::Random;
use crate::values::{csr_value, value};
use reference::machine::{csr, Supervisor, MEMORY_WORDS};

/// Two writes for a record that stands so.
pub fn writes(random: &mut Random, record: &Record) -> [Call; 2] {
    let tests = record[0] as u32 & csr::TEST_MODE != 0;
    match random.below(16) {
        _ if tests && random.once_in(3) => with_control(random),
        0..=5 => settings(random),
        6 | 7 => alike(random),
        8..=10 => places(random),
        11 | 12 => setting_and_place(random),
        13 => one_register(random),
        14 => setting_and_csr(random),
        _ => one_place(random),
    }
}

/// Two different numbers below this one, every pair as likely.
fn two(random: &mut Random, below: u32) -> [u32; 2] {
    let one = random.below(below);
    let other = random.below(below - 1);
    [one, other + u32::from(other >= one)]
}

/// A write to a setting, plain or by bytes, mostly taken where the module is inactive.
fn setting(random: &mut Random, number: u32) -> Call {
    if random.once_in(2) {
        return byte_calls::write(random, number);
    }
    let value = if random.once_in(4) { value(random, number) } else { random.next() & width(number) };
    [WRITE_REGISTER, number.into(), value.into(), 0]
}

fn settings(random: &mut Random) -> [Call; 2] {
    two(random, 16).map(|at| setting(random, 1 + at))
}

/// Control, which test mode opens while active, and another setting or a place. [Test.2]
fn with_control(random: &mut Random) -> [Call; 2] {
    let one = setting(random, Supervisor::CONTROL);
    let (number, place) = (2 + random.below(15), place(random));
    let other = if random.once_in(2) { setting(random, number) } else { write_place(random, place) };
    random.pick(&[[one, other], [other, one]])
}

/// Bytes that are taken, by one of the ten runs.
fn run_of(random: &mut Random, number: u32, (first, count): (u32, u32)) -> Call {
    let any = random.next();
    let value = any & width(number) | random.pick(&[0, any]) & !byte_calls::bits((first, count));
    [WRITE_BYTES, number.into(), value.into(), packed(first, count)]
}

/// Two factors or two timers, by runs with and without BYTE(3). [Bytes.4a]
fn alike(random: &mut Random) -> [Call; 2] {
    let (from, count) = random.pick(&[(Supervisor::FACTOR_1, 8), (Supervisor::T1, 5)]);
    two(random, count).map(|at| {
        let run = random.pick(&RUNS);
        run_of(random, from + at, run)
    })
}

fn write_place(random: &mut Random, place: u32) -> Call {
    [WRITE_MEMORY, place.into(), (random.next() & 0xFFFF).into(), 0]
}

/// A place: any, the first and the last, and beyond. [Declines.4c]
fn place(random: &mut Random) -> u32 {
    match random.below(8) {
        0 => random.pick(&[0, 4_095]),
        1 => random.pick(&[4_096, 4_097, 8_191, 65_535, 65_536, 69_632, u32::MAX]),
        _ => random.below(MEMORY_WORDS as u32),
    }
}

/// Two different places: neighbours, two that differ in one bit, or any.
fn places(random: &mut Random) -> [Call; 2] {
    let one = place(random);
    let other = match random.below(4) {
        0 => one.wrapping_add(1),
        1 => one ^ 1 << random.below(17),
        _ => place(random),
    };
    let other = if other == one { one ^ 1 } else { other };
    [write_place(random, one), write_place(random, other)]
}

fn setting_and_place(random: &mut Random) -> [Call; 2] {
    let (number, place) = (1 + random.below(16), place(random));
    let (one, other) = (setting(random, number), write_place(random, place));
    random.pick(&[[one, other], [other, one]])
}

/// Not claimed: two writes to one register, often by runs that share no byte.
fn one_register(random: &mut Random) -> [Call; 2] {
    if random.once_in(2) {
        let number = 1 + random.below(16);
        return [setting(random, number), setting(random, number)];
    }
    let number = if random.once_in(2) { Supervisor::FACTOR_1 + random.below(8) } else { 1 + random.below(16) };
    let at = 1 + random.below(3);
    let (low, high) = (run_of(random, number, (0, at)), run_of(random, number, (at, 4 - at)));
    random.pick(&[[low, high], [high, low]])
}

/// Not claimed: the CSR decides whether a setting is taken, and RESET loads the counters.
fn setting_and_csr(random: &mut Random) -> [Call; 2] {
    let number = 1 + random.below(16);
    let (one, value) = (setting(random, number), csr_value(random));
    let other = [WRITE_REGISTER, 0, value.into(), 0];
    random.pick(&[[one, other], [other, one]])
}

/// Not claimed: the later word stays.
fn one_place(random: &mut Random) -> [Call; 2] {
    let place = place(random);
    [write_place(random, place), write_place(random, place)]
}
