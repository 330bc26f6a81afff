//! What a random tick brings.

use crate::numbers::*;
use crate::profile::{Acknowledges, Profile};
use crate::random::Random;

/// A tick by the habits of the list, for a record that stands so.
pub fn tick(random: &mut Random, profile: &Profile, record: &Record) -> Call {
    let mut triggers = 0;
    if random.chance(profile.pulses) {
        triggers = random.next() & profile.inputs;
        if random.chance(100) {
            triggers &= random.next();
        }
    }
    let chances =
        [profile.strobe, profile.pass_2, profile.fail_2, profile.pass_3, profile.fail_3, profile.busy, profile.inhibit];
    let mut lines = 0;
    for (bit, of) in chances.into_iter().enumerate() {
        lines |= u32::from(random.chance(of)) << bit;
    }
    if random.once_in(400) {
        triggers = random.pick(&[0, 0xFFF, 0x1000, 0x1001, u32::MAX]);
        lines = random.pick(&[0x7F, 0x80, 0xFF, u32::MAX]);
    }
    let mut acknowledges = 0;
    for b in 0..4 {
        acknowledges |= u32::from(acknowledged(random, profile.acknowledges, record, b)) << (8 * b);
    }
    [TICK, triggers.into(), lines.into(), acknowledges.into()]
}

/// The acknowledges of one branch.
fn acknowledged(random: &mut Random, habit: Acknowledges, record: &Record, b: usize) -> u8 {
    let enabled = (record[10] >> (8 * b)) as u8;
    let willing = |random: &mut Random| match record[BRANCH + 3 * b + 2] {
        1 => enabled | random.next() as u8 & random.next() as u8,
        2 => !enabled & random.next() as u8,
        _ => random.next() as u8,
    };
    match habit {
        Acknowledges::None => 0,
        Acknowledges::All => 0xFF,
        Acknowledges::Random => (random.next() & random.next()) as u8,
        Acknowledges::Willing(of) if random.chance(of) => willing(random),
        Acknowledges::Willing(_) => random.pick(&[0, 0xFF, 0x01, !enabled]),
        Acknowledges::Partly(silent) if silent >> b & 1 == 1 => 0,
        Acknowledges::Partly(_) => willing(random),
    }
}
