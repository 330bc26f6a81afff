//! Random fills of the memory: their words, and the calls that show what was filled. [Table.4] [Table.8b]

use crate::numbers::*;
use crate::random::Random;
use reference::machine::{csr, Supervisor, INPUTS, MEMORY_WORDS};

/// Keeps the numbers of fills apart from those of the steps and of pairs.
pub const SEED: u64 = 0xF111_0000_0000_0000;

/// The bits of a word that the generator asks for: level 1 OK and classes 1–3. [Table.8b]
const ASKED: u16 = 0x000F;
const TAKEN: [u16; 3] = [0x3, 0x5, 0x9];
/// Without level 1 OK: no class, one, two, three; with it: no class, two, three.
const BAD: [&[u16]; 7] = [&[0x0], &[0x2, 0x4, 0x8], &[0x6, 0xA, 0xC], &[0xE], &[0x1], &[0x7, 0xB, 0xD], &[0xF]];

/// Twelve words: the shipped ones, others that are taken, some with bad ones among them, or any.
pub fn words(random: &mut Random) -> [u16; INPUTS] {
    match random.below(16) {
        0 | 1 => Supervisor::SHIPPED_WORDS,
        2..=6 => good_words(random),
        7 => with_one(random, good),
        8..=11 => with_one(random, bad),
        12 | 13 => {
            let mut words = good_words(random);
            for _ in 0..2 + random.below(10) {
                words[random.below(INPUTS as u32) as usize] = bad(random);
            }
            words
        }
        14 => std::array::from_fn(|_| bad(random)),
        _ => std::array::from_fn(|_| random.next() as u16),
    }
}

fn good(random: &mut Random) -> u16 {
    random.next() as u16 & !ASKED | random.pick(&TAKEN)
}

/// Often with all or none of the other bits.
fn bad(random: &mut Random) -> u16 {
    let kind = random.pick(&BAD);
    let any = random.next() as u16;
    random.pick(&[any, any, 0, u16::MAX]) & !ASKED | random.pick(kind)
}

/// Words that are taken: any, ones with few accept bits, or the shipped ones in another order.
fn good_words(random: &mut Random) -> [u16; INPUTS] {
    match random.below(4) {
        0 => std::array::from_fn(|_| good(random) & (random.next() as u16 | 0x00FF)),
        1 => std::array::from_fn(|_| good(random) & 0x00FF | random.pick(&[0, 0x100, 0x200, 0x4000, 0x8000])),
        2 => std::array::from_fn(|_| random.pick(&Supervisor::SHIPPED_WORDS)),
        _ => std::array::from_fn(|_| good(random)),
    }
}

/// Words that are taken, but for one at any input.
fn with_one(random: &mut Random, one: fn(&mut Random) -> u16) -> [u16; INPUTS] {
    let mut words = if random.once_in(2) { Supervisor::SHIPPED_WORDS } else { good_words(random) };
    words[random.below(INPUTS as u32) as usize] = one(random);
    words
}

/// What comes behind a fill: the same once more, reads of places, or a start with pulses on all inputs.
pub fn behind(random: &mut Random, fill: Call) -> Vec<Call> {
    let mut calls = Vec::new();
    if random.once_in(4) {
        calls.push(fill);
    }
    if random.once_in(2) {
        calls.extend((0..random.below(6)).map(|_| [READ_MEMORY, place(random), 0, 0]));
    }
    if random.once_in(2) {
        let control = Supervisor::CONTROL.into();
        calls.push([WRITE_REGISTER, control, 0x1FFE, 0]);
        calls.push([WRITE_REGISTER, 0, csr::GO.into(), 0]);
        calls.extend((0..1 + random.below(5)).map(|_| [TICK, triggers(random), 0x0B, 0]));
    }
    calls
}

/// Place 0, one input's place, or any.
fn place(random: &mut Random) -> u64 {
    match random.below(6) {
        0 => 0,
        1..=3 => 1 << random.below(INPUTS as u32),
        _ => random.below(MEMORY_WORDS as u32).into(),
    }
}

/// Pulses on one input, on two, or on any.
fn triggers(random: &mut Random) -> u64 {
    let one = 1 << random.below(INPUTS as u32);
    match random.below(3) {
        0 => one,
        1 => one | 1 << random.below(INPUTS as u32),
        _ => (random.next() & 0xFFF).into(),
    }
}
