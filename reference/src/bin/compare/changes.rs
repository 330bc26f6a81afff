//! Records changed between calls: one field put to a value at or beyond a limit, or anywhere.

use crate::numbers::*;
use crate::random::Random;
use reference::machine::{csr, test};

/// One change.
pub fn change(random: &mut Random, n: &mut Record) {
    match random.below(37) {
        which @ 0..=11 => change_setting(random, n, which),
        which @ 12..=24 => change_sequencer(random, n, which - 12),
        which @ 25..=30 => change_branch(random, n, which - 25),
        31..=33 => change_kept(random, n),
        _ => change_waiting(random, n),
    }
}

/// Registers 0–19, the counters and the latches.
fn change_setting(random: &mut Random, n: &mut Record, which: u32) {
    let i = random.below(8) as usize;
    let limit = if i < 4 { 0xF_FFFF } else { 0x3FFF };
    match which {
        0 => n[0] ^= 1 << random.below(32),
        1 => n[1] ^= 1 << random.below(32),
        2 => {
            n[2 + i] = random.pick(&[limit, limit + 1, u64::from(u32::MAX), n[COUNTERS + i].saturating_sub(1)]);
            if random.once_in(2) {
                n[COUNTERS + i] = n[COUNTERS + i].min(n[2 + i]);
            }
        }
        // At its factor, above it within the width, and beyond the width. [Bytes.9]
        3 => n[COUNTERS + i] = random.pick(&[n[2 + i], n[2 + i] + 1, 0, 1, 2]) & 0xFFFF_FFFF,
        4 => n[COUNTERS + i] = random.pick(&[limit - 1, limit, limit + 1, u64::from(u32::MAX)]),
        5 => {
            let near = [0x0F, 0x10, 0x3F, 0x40, 0x4F, 0x50, 0x5F, 0x60, 0xFF, 0x15F, u64::from(u32::MAX)];
            n[19] = random.pick(&near);
        }
        6 => n[11] = random.pick(&[0, 1, 2, 65_534, 65_535]),
        7 => n[12 + i % 4] = random.pick(&[0, 1, 3, 0x7FFF, 0x8000, 0xFFFF]),
        8 => n[16] = random.pick(&[0, 1, 255]),
        9 => {
            n[17 + i % 2] = random.pick(&[0, 0xFFFF_FFFE, 0xFFFF_FFFF]);
            n[LATCH + i % 2] = n[17 + i % 2];
        }
        10 => {
            n[17 + i % 2] = random.next().into();
            n[LATCH + i / 2 % 2] = random.next().into();
        }
        _ => n[10] = random.next().into(),
    }
}

/// Main, the sync count, the user sync and the blind count.
fn change_sequencer(random: &mut Random, n: &mut Record, which: u32) {
    match which {
        0 | 1 => n[STATE] = random.below(8).into(),
        2 => n[AGE] = random.pick(&[0, 1, 5, 131_068, 131_069, 131_070, 131_071, u64::from(u32::MAX)]),
        3 => n[CLEAR] = random.pick(&[0, 1, 2, 254, 255]),
        4 => n[CLASS] = random.pick(&[0, 1, 2, 3, 4, 255]),
        5 => n[CODE] = random.pick(&[0, 5, 15, 16, 17, 128, 255]),
        6 => n[PATTERN] = random.below(256).into(),
        7 => n[RAISED] = random.below(32).into(),
        8 => n[LATE] ^= 1,
        9 => n[SYNC_COUNT] = random.pick(&[0, 1, n[11].saturating_sub(1), n[11], 65_533, 65_534, 65_535]),
        10 => n[WAITING] ^= 1,
        11 => n[BLIND] = random.pick(&[0, 1, 2, 3, 255]),
        _ => {
            n[WAITING] = 1;
            n[STATE] = 0;
        }
    }
}

/// A branch's phase and queue.
fn change_branch(random: &mut Random, n: &mut Record, which: u32) {
    let b = BRANCH + 3 * random.below(4) as usize;
    match which {
        0 => n[b + 2] = random.below(3).into(),
        1 => n[b] |= 1 << random.below(64),
        2 | 3 => {
            // A bit above the six of a used place, in a queue that holds a word or gets one.
            if n[b + 1] == 0 {
                n[b + 1] = 1;
                n[b] = random.below(64).into();
            }
            let place = random.below(n[b + 1].min(8) as u32);
            n[b] |= 0x40 << (8 * place + random.below(2));
        }
        _ => change_queue(random, n, b),
    }
}

/// A queue of another length, its words in order.
fn change_queue(random: &mut Random, n: &mut Record, b: usize) {
    n[b + 1] = random.pick(&[0, 1, 6, 7, 8, 8, 9, 15, 16, 17, 128, 255]);
    n[b] = random.wide() & 0x3F3F_3F3F_3F3F_3F3F;
    if n[b + 1] < 8 {
        n[b] &= (1 << (8 * n[b + 1])) - 1;
    } else if n[b + 1] > 8 && random.once_in(2) {
        n[b] = 0; // too long, and nothing else
    }
    if n[b + 2] == 1 && n[b + 1] == 0 && random.once_in(2) {
        n[b + 2] = 0;
    }
    if n[b + 1] == 8 && random.once_in(2) {
        n[STATE] = random.pick(&[5, 6]);
        n[WAITING] = 0;
    }
}

/// What is kept of the latest tick, each over its whole range. [State.3]
fn change_kept(random: &mut Random, n: &mut Record) {
    match random.below(4) {
        0 => n[KEPT_LINES] = (random.next() & random.pick(&[0xFF, 0xFFFF_FFFF])).into(),
        1 => n[LATCHED] ^= 1,
        2 => n[KEPT_ACKNOWLEDGES] = random.next().into(),
        _ => n[KEPT_ACKNOWLEDGES] = random.pick(&[0, 0xFFFF_FFFF, n[10], n[10] ^ 0xFFFF_FFFF]),
    }
}

/// What waits, over its whole range, and a mode with it. [Open: T9]
fn change_waiting(random: &mut Random, n: &mut Record) {
    let any = random.next();
    let (odd, one) = (any & !test::BITS, 1 << random.below(32));
    n[TEST] = random.pick(&[0, any, odd, any & test::BITS, odd | test::LEVEL_1_PASS, one]).into();
    match random.below(6) {
        0 | 1 => n[0] |= u64::from(csr::TEST_MODE),
        2 => n[0] ^= u64::from(csr::HOLD),
        3 => n[0] |= u64::from(csr::MODES),
        _ => {}
    }
}
