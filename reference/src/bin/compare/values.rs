//! Random values for the calls of a list: register numbers and values, places and words of the memory.

use crate::random::Random;
use reference::machine::{csr, test, MEMORY_WORDS};

/// A register's number, mostly one that exists.
pub fn number(random: &mut Random) -> u32 {
    if random.once_in(25) {
        random.pick(&[22, 23, 31, 32, 255, 256, u32::MAX])
    } else {
        random.below(22)
    }
}

/// A listed code for register 19.
pub fn listed(random: &mut Random) -> u32 {
    match random.below(3) {
        0 => random.below(16),
        1 => random.below(0x40),
        _ => random.pick(&[0x00, 0x0D, 0x0E, 0x0F, 0x10, 0x1F, 0x20, 0x2F, 0x30, 0x3F, 0x50, 0x5F, 0x57]),
    }
}

/// A value for a register: mostly small, often at the limit or one past it.
pub fn value(random: &mut Random, number: u32) -> u32 {
    if random.once_in(12) {
        return random.next() >> random.below(32);
    }
    match number {
        0 => csr_value(random),
        1 => random.next() & random.pick(&[0x9FFF, 0x1FFE, 0x1FFF, 0xFFFF, 0x1_9FFF]),
        2..=5 => random.pick(&[0, 1, 2, 5, 0x3FFF, 0x4000, 0xF_FFFF, 0x10_0000]),
        6..=9 => random.pick(&[0, 1, 2, 5, 0x3FFF, 0x4000, 0x8000, 0xF_FFFF]),
        10 => random.next() & random.next(),
        11 => random.pick(&[0, 1, 2, 3, 0xFFFF, 0x1_0000]),
        12..=15 => random.pick(&[0, 1, 2, 3, 4, 0xFFFF, 0x1_0000]),
        16 => random.pick(&[0, 1, 2, 3, 0xFF, 0x100, 0xFFFF]),
        19 if random.once_in(3) => random.pick(&[0x40, 0x4F, 0x60, 0x7F, 0x80, 0x100]),
        19 => listed(random),
        21 => test_value(random),
        _ => random.next(),
    }
}

/// A value for the CSR: what a running unit is told, or any bits.
pub fn csr_value(random: &mut Random) -> u32 {
    let request = random.pick(&[csr::PAUSE_AND_SYNC, csr::FORCE_SYNC, csr::PAUSE_AND_SYNC | csr::FORCE_SYNC]);
    match random.below(20) {
        0 | 1 => csr::GO,
        2 => csr::GO << 16,
        3..=6 => csr::ENABLE_SYNC | request,
        7 => csr::ENABLE_SYNC | csr::PAUSE_ON_NEXT_SYNC,
        8 => request,
        9 => (request | csr::ENABLE_SYNC) << 16,
        10 => csr::RESET | random.next() & 0x0FFF_0FFF,
        11 => csr::RESET,
        12 => csr::CLEAR_STATUS | random.next() & 0x0FFF,
        13 => csr::INITIALIZE | if random.once_in(2) { random.next() & 0xBFFF_7FFF } else { 0 },
        14 => 1 << random.below(32),
        15 => (1 << random.below(12)) << 16,
        16 => csr::GO | csr::GO << 16,
        17 => random.next() & 0x8FFF_0FFF,
        18 => random.next() & 0x0000_0FFF & !csr::PAUSE_AND_SYNC,
        _ => random.next(),
    }
}

/// A value for TEST: what a test goes through, one bit, or any bits; seldom a bad one.
pub fn test_value(random: &mut Random) -> u32 {
    let any = random.next();
    match random.below(12) {
        0 | 1 => test::LEVEL_1_PASS,
        2 => test::LEVEL_1_PASS | any & 0x7F3C & random.next(),
        3 => test::LEVEL_2_PASS | test::LEVEL_3_PASS,
        4 => any & 0x3C,
        5 => test::ENABLE_ACKNOWLEDGES | any & 0x3C00,
        6 => test::ENABLE_ACKNOWLEDGES | random.pick(&[0, 0x3C00]),
        7 => test::SINGLE_STEP | any & 0x7D & !0x42,
        8 => 1 << random.below(32),
        9 => any & random.next() & test::BITS,
        10 => 1 << random.below(32) | any & random.next() & test::BITS,
        _ => any & test::BITS,
    }
}

/// A value for the CSR of a blind module: a stop, a start, RESET or a sync.
pub fn blind_value(random: &mut Random) -> u32 {
    let sync = csr::ENABLE_SYNC | random.pick(&[csr::PAUSE_AND_SYNC, csr::FORCE_SYNC]);
    random.pick(&[csr::GO << 16, csr::GO << 16, csr::GO, csr::RESET, sync])
}

pub fn place(random: &mut Random) -> u32 {
    if random.once_in(12) {
        random.pick(&[4_095, 4_096, 4_097, 65_536, u32::MAX])
    } else {
        random.below(MEMORY_WORDS as u32)
    }
}

/// Habits of a memory.
pub const HABITS: u32 = 6;

/// A memory word; `habit` says which class is frequent, or that most words reject.
pub fn word(random: &mut Random, habit: u32) -> u16 {
    let any = random.next() as u16;
    match habit {
        0 => any,
        1 => any & !0x000E | 0x0003,
        2 => any & !0x000E | 0x0005,
        3 => any & !0x000E | 0x0009,
        4 if !random.once_in(4) => any & !0x0001,
        _ => any | 0x0001,
    }
}
