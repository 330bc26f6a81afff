//! The register writes that a list starts with: they make it lively, and GO comes last.

use crate::random::Random;
use crate::values::listed;
use reference::machine::csr;

/// Numbers and values, in the order of the writes.
pub fn writes(random: &mut Random) -> Vec<(u64, u32)> {
    let mut writes: Vec<(u64, u32)> = Vec::new();
    let enables = if random.once_in(4) { random.next() & 0x1FFE } else { 0x1FFE };
    let control = enables | u32::from(random.once_in(4)) | if random.once_in(3) { 0x8000 } else { 0 };
    writes.push((1, control));
    let factors = random.below(4);
    for number in 2..=9 {
        let factor = match factors {
            0 | 1 => 0,
            2 => random.below(4),
            _ => random.pick(&[0, 1, 2, 30, 0x3FFF]),
        };
        writes.push((number, factor));
    }
    writes.push((10, controllers(random)));
    let interval = random.pick(&[0, 1, 1, 2, 3, 5, 9, 0xFFFF]);
    writes.push((11, interval));
    let long = random.once_in(8);
    for number in 12..=16 {
        let limit = if long { 40 } else { 6 };
        let count = if random.once_in(40) { random.pick(&[0xFF, 0x80]) } else { random.below(limit) };
        writes.push((number, count));
    }
    writes.push((19, listed(random)));
    writes.push((0, start(random)));
    writes
}

/// The controllers enabled.
fn controllers(random: &mut Random) -> u32 {
    match random.below(6) {
        0 => 0,
        1 => 0x0101_0101,
        2 => 0xFFFF_FFFF,
        3 => 1 << random.below(32),
        4 => 0x0101_0101 << random.below(8),
        _ => random.next() & random.next(),
    }
}

/// The CSR bits set, mostly with GO.
fn start(random: &mut Random) -> u32 {
    let mut bits = random.next() & 0xFE0;
    if random.once_in(2) {
        bits &= !(csr::ROC_LOCK | csr::ROC_LOCK_BRANCH_4);
    }
    if random.once_in(2) {
        bits |= csr::ENABLE_SYNC;
    }
    if random.once_in(6) {
        bits |= csr::PAUSE_ON_NEXT_SYNC;
    }
    bits | u32::from(!random.once_in(8))
}
