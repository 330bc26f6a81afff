//! Random byte-wise calls: runs, values for them, and stretches of calls that stay with one register. [Bytes.2]

use crate::numbers::*;
use crate::random::Random;
use crate::values::{listed, number, value};
use reference::machine::{control, csr, test, Supervisor};

/// First byte and count of the ten runs.
pub const RUNS: [(u32, u32); 10] = [(0, 1), (1, 1), (2, 1), (3, 1), (0, 2), (1, 2), (2, 2), (0, 3), (1, 3), (0, 4)];

/// A run, seldom none.
fn run(random: &mut Random) -> (u32, u32) {
    if random.once_in(8) {
        no_run(random)
    } else {
        random.pick(&RUNS)
    }
}

/// Two numbers that are no run. [Bytes.11]
fn no_run(random: &mut Random) -> (u32, u32) {
    match random.below(5) {
        0 => (random.below(5), 0),
        1 => {
            let first = random.below(4);
            (first, 5 - first + random.pick(&[0, 0, 1, 4, 252]))
        }
        2 => (random.pick(&[4, 5, 8, 256, u32::MAX]), random.pick(&[0, 1, 2, 4])),
        // The sum, cut to 32 bits, is 4 or less.
        3 => {
            let back = random.pick(&[1, 2, 3, 4, u32::MAX, u32::MAX - 1, u32::MAX - 2]);
            (back.wrapping_neg(), back.wrapping_add(random.below(5)))
        }
        _ => (random.next(), if random.once_in(2) { random.next() } else { u32::MAX }),
    }
}

/// The bits of a run, 0 where it is none.
pub fn bits((first, count): (u32, u32)) -> u32 {
    if !RUNS.contains(&(first, count)) {
        return 0;
    }
    (0..4).filter(|byte| (first..first + count).contains(byte)).map(|byte| 0xFF << (24 - 8 * byte)).sum()
}

/// The bits that a write takes, but for the codes of register 19. [Declines.2d]
pub fn width(number: u32) -> u32 {
    match number {
        0 => 0xBFFF_FFFF,
        1 => 0x9FFF,
        2..=5 => 0xF_FFFF,
        6..=9 => 0x3FFF,
        11..=15 => 0xFFFF,
        16 => 0xFF,
        19 => 0x7F,
        21 => test::BITS,
        _ => u32::MAX,
    }
}

/// A value that is mostly taken, with anything outside the run.
fn bytes_for(random: &mut Random, number: u32, run: (u32, u32)) -> u32 {
    let inside = match random.below(6) {
        0 => random.next(),
        1 | 2 if number != 0 => random.next() & width(number),
        3 if number == 19 => listed(random),
        _ => value(random, number),
    };
    let any = random.next();
    let outside = random.pick(&[0, u32::MAX, any]);
    inside & bits(run) | outside & !bits(run)
}

pub fn write(random: &mut Random, number: u32) -> Call {
    let run = run(random);
    [WRITE_BYTES, number.into(), bytes_for(random, number, run).into(), packed(run.0, run.1)]
}

fn read(random: &mut Random, number: u32) -> Call {
    let run = run(random);
    [READ_BYTES, number.into(), 0, packed(run.0, run.1)]
}

/// One byte-wise call, often on a scaler or the CSR.
pub fn call(random: &mut Random) -> Call {
    let number = match random.below(5) {
        0 => 17 + random.below(2),
        1 => 0,
        _ => number(random),
    };
    if random.once_in(2) {
        read(random, number)
    } else {
        write(random, number)
    }
}

/// Calls that stay with one register, in their order: plain ones and byte-wise ones by turns. RESET comes first, so
/// that settings are taken, and GO last.
pub fn stretch(random: &mut Random) -> Vec<Call> {
    let open = control::OPEN_PRESCALES | 0x1FFE;
    let reset = [WRITE_BYTES, 0, csr::RESET.into(), packed(2, 1)];
    let mut calls = vec![reset, [WRITE_REGISTER, 1, open.into(), 0]];
    match random.below(8) {
        0 => run_down(random, &mut calls),
        1..=4 => factor(random, &mut calls),
        5 | 6 => setting(random, &mut calls),
        _ => scaler(random, &mut calls),
    }
    calls.push([WRITE_BYTES, 0, csr::GO.into(), packed(3, 1)]);
    calls
}

/// Ticks with a pulse on this input, and on others by chance.
fn pulses(random: &mut Random, input: u32, count: u32, calls: &mut Vec<Call>) {
    for _ in 0..count {
        let others = if random.once_in(4) { random.next() & 0xFFF } else { 0 };
        calls.push([TICK, (1 << input | others).into(), 0, 0]);
    }
}

/// Loads, changes and changes back of one factor, with pulses between.
fn factor(random: &mut Random, calls: &mut Vec<Call>) {
    let input = random.below(8);
    let number = 2 + input;
    for _ in 0..2 + random.below(12) {
        let low = random.below(4);
        let high = random.pick(&[0, 0, 0x0100, 0x0200]);
        let run = random.pick(&[(2, 1), (1, 2), (0, 3)]);
        calls.push(match random.below(8) {
            0 => [WRITE_REGISTER, number.into(), (high | low).into(), 0],
            1 => [WRITE_BYTES, number.into(), low.into(), packed(3, 1)],
            2..=4 => [WRITE_BYTES, number.into(), high.into(), packed(run.0, run.1)],
            5 => [WRITE_BYTES, 0, csr::RESET.into(), packed(1, 2)],
            6 => write(random, number),
            _ => read(random, number),
        });
        let count = random.pick(&[0, 0, 1, 2, 5, 9]);
        pulses(random, input, count, calls);
    }
}

/// A counter a little above 256 runs down to 0 over a factor that has lost its upper bytes.
fn run_down(random: &mut Random, calls: &mut Vec<Call>) {
    let input = random.below(8);
    let low = random.below(3);
    calls.push([WRITE_REGISTER, (2 + input).into(), (0x0100 | low).into(), 0]);
    calls.push([WRITE_BYTES, (2 + input).into(), 0, packed(0, 3)]);
    pulses(random, input, 0x0108, calls);
}

/// One setting written and read whole and by bytes.
fn setting(random: &mut Random, calls: &mut Vec<Call>) {
    let number = random.pick(&[1, 10, 11, 12, 13, 14, 15, 16, Supervisor::ASSIGN]);
    for _ in 0..3 + random.below(8) {
        calls.push(match random.below(6) {
            0 => [WRITE_REGISTER, number.into(), (value(random, number) & width(number)).into(), 0],
            1 => [READ_REGISTER, number.into(), 0, 0],
            2 => read(random, number),
            _ => write(random, number),
        });
    }
}

/// Scaler 1 written and read whole and by bytes, with counts between.
fn scaler(random: &mut Random, calls: &mut Vec<Call>) {
    let number = Supervisor::SCALER_1;
    calls.push([WRITE_BYTES, Supervisor::ASSIGN.into(), 0, packed(3, 1)]);
    for _ in 0..3 + random.below(8) {
        calls.push(match random.below(8) {
            0 => [READ_REGISTER, number.into(), 0, 0],
            1 => write(random, number),
            2 => write(random, 0),
            _ => read(random, number),
        });
        let count = random.below(4);
        pulses(random, 11, count, calls);
    }
}
