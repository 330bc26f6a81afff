//! Byte-wise write and read a second time, slow: byte by byte, and then the plain call with what it must not do undone,
//! or for the CSR, control and TEST the slow one.

use super::bytes::RUNS;
use super::*;

/// [Bytes.2]
pub fn is_run(first: u32, count: u32) -> bool {
    RUNS.iter().any(|&(f, c, _)| (f, c) == (first, count))
}

/// The bytes of the run from one word, the others from another, BYTE(0) first. [Bytes.2]
fn mixed(run: u32, from: u32, others: u32) -> u32 {
    let (from, mut bytes) = (from.to_be_bytes(), others.to_be_bytes());
    for byte in 0..4 {
        if run >> (24 - 8 * byte) & 0xFF != 0 {
            bytes[byte] = from[byte];
        }
    }
    u32::from_be_bytes(bytes)
}

/// The bits of a run.
pub fn bits(first: u32, count: u32) -> u32 {
    RUNS.iter().find(|&&(f, c, _)| (f, c) == (first, count)).expect("a run").2
}

pub fn write(start: &Supervisor, number: u32, run: (u32, u32), value: u32) -> (Result<(), u8>, Supervisor) {
    let mut next = start.clone();
    let unknown = number > 19 && number != 21; // [State.8b] [Test.1]
    let first_declines = [(start.is_spoiled(), 1), (unknown, 3), (!is_run(run.0, run.1), 7)]; // [Bytes.11]
    if let Some((_, decline)) = first_declines.into_iter().find(|&(is, _)| is) {
        return (Err(decline), next);
    }
    let run = bits(run.0, run.1);
    let stored = match number {
        0 | 21 => 0,                                       // [Bytes.3b] [Open: T9]
        _ => start.clone().read_register(number).unwrap(), // [Bytes.3a]
    };
    let merged = mixed(run, value, stored);
    if matches!(number, 0 | 1 | 21) {
        return plain_test::write(start, number, merged); // [Test.2] [Test.10]
    }
    let answer = next.write_register(number, merged);
    if run & 0xFF == 0 {
        match number {
            2..=9 => next.counters = start.counters, // [Bytes.4a]
            17 | 18 => next.scalers = start.scalers, // [Bytes.6]
            _ => {}
        }
    }
    (answer, next)
}

pub fn read(start: &Supervisor, number: u32, run: (u32, u32)) -> (Result<u32, u8>, Supervisor) {
    let mut next = start.clone();
    let declines = [(start.is_spoiled(), 1), (number > 20, 3), (!is_run(run.0, run.1), 7)]; // [Bytes.11]
    if let Some((_, decline)) = declines.into_iter().find(|&(is, _)| is) {
        return (Err(decline), next);
    }
    let run = bits(run.0, run.1);
    let whole = match number {
        17 | 18 if run & 0xFF == 0 => start.latches[number as usize - 17], // [Bytes.5b]
        17 | 18 => {
            next.latches[number as usize - 17] = start.scalers[number as usize - 17]; // [Bytes.5a]
            start.scalers[number as usize - 17]
        }
        _ => next.read_register(number).unwrap(),
    };
    (Ok(mixed(run, whole, 0)), next) // [Bytes.7]
}
