//! Random calls that have to do with the modes and with TEST: single ones, and stretches in which something waits.
//! [Test.1]

use crate::byte_calls::RUNS;
use crate::numbers::*;
use crate::random::Random;
use crate::values::{test_value, value};
use reference::machine::{csr, test, Supervisor};

/// Both modes, where a CSR write sets them and where it clears them.
const MODE_BITS: u32 = csr::MODES | csr::MODES << csr::CLEAR_SHIFT;

/// A write, seldom by a run that holds its bits or misses them.
fn write(random: &mut Random, number: u32, value: u32) -> Call {
    if !random.once_in(4) {
        return [WRITE_REGISTER, number.into(), value.into(), 0];
    }
    let (first, count) = match value {
        0..=0xFF if random.once_in(2) => (3, 1),
        0..=0xFFFF if random.once_in(2) => (2, 2),
        _ => random.pick(&RUNS),
    };
    [WRITE_BYTES, number.into(), value.into(), packed(first, count)]
}

fn csr_write(random: &mut Random, value: u32) -> Call {
    let run = match value {
        0x100..=0xFFFF if random.once_in(4) => (2, 1),
        0x0100_0000.. if value & 0xFF_FFFF == 0 && random.once_in(4) => (0, 1),
        _ => return [WRITE_REGISTER, 0, value.into(), 0],
    };
    [WRITE_BYTES, 0, value.into(), packed(run.0, run.1)]
}

fn some_modes(random: &mut Random) -> u32 {
    random.pick(&[csr::HOLD, csr::TEST_MODE, csr::TEST_MODE, csr::MODES, csr::MODES])
}

/// A tick with much coming from outside, seldom one that is declined.
fn tick(random: &mut Random) -> Call {
    let triggers = if random.once_in(12) { 0x1000 } else { random.next() & 0xFFF };
    let lines = random.next() & if random.once_in(2) { 0x7F } else { 0x1F };
    let any = random.next();
    [TICK, triggers.into(), lines.into(), random.pick(&[0, u32::MAX, any]).into()]
}

/// The next calls, in their order, for a record that stands so.
pub fn calls(random: &mut Random, record: &Record) -> Vec<Call> {
    let hold = record[0] as u32 & csr::HOLD != 0;
    let modes = some_modes(random);
    let one = match random.below(24) {
        0..=4 => {
            let value = test_value(random);
            write(random, Supervisor::TEST, value)
        }
        5..=9 if hold => {
            let value = test::SINGLE_STEP | test_value(random) & test::BITS;
            write(random, Supervisor::TEST, value)
        }
        5..=9 => {
            let value = test::LEVEL_1_PASS | random.next() & random.next() & 0x4C3C;
            write(random, Supervisor::TEST, value)
        }
        10 => csr_write(random, modes),
        11 if hold => csr_write(random, csr::HOLD << csr::CLEAR_SHIFT),
        11 => csr_write(random, modes << csr::CLEAR_SHIFT),
        12 => csr_write(random, csr::GO | modes << csr::CLEAR_SHIFT),
        13 => [WRITE_REGISTER, 0, (random.next() & MODE_BITS).into(), 0],
        14 if random.once_in(3) => [WRITE_REGISTER, 0, (csr::RESET | random.next() & MODE_BITS).into(), 0],
        15 => [WRITE_REGISTER, 0, (1 << 30 | random.next() & MODE_BITS).into(), 0],
        16 => {
            let value = if random.once_in(3) { value(random, 1) } else { random.next() & 0x9FFF };
            write(random, Supervisor::CONTROL, value)
        }
        17 => {
            let number = 2 + random.below(15);
            let value = random.below(4);
            write(random, number, value)
        }
        18 if random.once_in(2) => [READ_REGISTER, Supervisor::TEST.into(), 0, 0],
        18 => [READ_BYTES, Supervisor::TEST.into(), 0, packed(3, 1)],
        19 => [READ_REGISTER, Supervisor::STATE.into(), 0, 0],
        _ => return stretch(random),
    };
    vec![one]
}

/// Something is written to TEST, something comes between, and ticks follow; at the end the modes mostly go off.
fn stretch(random: &mut Random) -> Vec<Call> {
    let before = random.pick(&[0, csr::HOLD, csr::TEST_MODE, csr::MODES, csr::MODES]);
    let mut calls = vec![csr_write(random, before | csr::GO)];
    for _ in 0..1 + random.below(3) {
        let waiting = random.pick(&[0x80, 0x81, 0x01, 0x01]);
        let value = if random.once_in(3) { test_value(random) } else { waiting };
        calls.push(write(random, Supervisor::TEST, value));
    }
    between(random, &mut calls);
    if random.once_in(2) {
        let modes = some_modes(random);
        calls.push(csr_write(random, modes));
    }
    if random.once_in(3) {
        calls.push(write(random, Supervisor::TEST, test::LEVEL_1_PASS));
    }
    for _ in 0..1 + random.below(3) {
        calls.push(tick(random));
    }
    if !random.once_in(4) {
        let modes = some_modes(random);
        calls.push(csr_write(random, modes << csr::CLEAR_SHIFT));
    }
    calls
}

/// What may come between a write to TEST and its tick.
fn between(random: &mut Random, calls: &mut Vec<Call>) {
    let own = random.next() & random.next() & MODE_BITS;
    let modes = some_modes(random);
    match random.below(12) {
        0 | 1 => calls.push([WRITE_REGISTER, 0, (csr::RESET | own).into(), 0]),
        2 if random.once_in(3) => {
            calls.push([WRITE_REGISTER, 0, (csr::INITIALIZE | own).into(), 0]);
            calls.push([WRITE_REGISTER, 1, 0x1FFE, 0]);
        }
        3 => {
            calls.push(csr_write(random, csr::HOLD << csr::CLEAR_SHIFT));
            calls.push(csr_write(random, csr::HOLD));
        }
        4 => calls.push(csr_write(random, modes << csr::CLEAR_SHIFT)),
        5 => calls.push([WRITE_REGISTER, 0, (1 << 30 | own | modes).into(), 0]),
        6 => calls.push([WRITE_REGISTER, 1, (random.next() & 0x9FFF).into(), 0]),
        7 => calls.push([TICK, 0x1FFF, 0x7F, 0]),
        8 => calls.push([WRITE_REGISTER, 0, (csr::GO << csr::CLEAR_SHIFT).into(), 0]),
        9 => calls.push([WRITE_REGISTER, 21, (test_value(random) | 1 << random.pick(&[1, 6, 15, 16, 31])).into(), 0]),
        10 => calls.push([WRITE_REGISTER, 0, (modes | modes << csr::CLEAR_SHIFT).into(), 0]),
        _ => {}
    }
}
