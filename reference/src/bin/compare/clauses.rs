//! The clauses of the spoiled rule, to count which of them the compared calls met.

use crate::numbers::*;

/// The clauses of the spoiled rule that a record of both machines can break.
pub const CLAUSES: [&str; 18] = [
    "CSR bit",
    "control bit",
    "factor of inputs 1-4",
    "factor of inputs 5-8",
    "assign code",
    "stored code over Fh",
    "Wait 2 in another class",
    "Strobe without a word",
    "counter of inputs 1-4 beyond its width",
    "counter of inputs 5-8 beyond its width",
    "word over 3Fh",
    "queue above 8",
    "queue above 7",
    "unused place not 0",
    "sync count over 65,534",
    "age over 131,070",
    "cycle while a user sync waits",
    "blind count over 2",
];

/// The clauses once more, only to count them.
pub fn broken_clauses(n: &Record) -> [bool; CLAUSES.len()] {
    let branch = |b: usize| (n[BRANCH + 3 * b].to_le_bytes(), n[BRANCH + 3 * b + 1], n[BRANCH + 3 * b + 2]);
    let any = |is: &dyn Fn([u8; 8], u64, u64) -> bool| {
        (0..4).any(|b| {
            let (words, used, phase) = branch(b);
            is(words, used, phase)
        })
    };
    let loaded = n[STATE] == 5 || n[STATE] == 6 || n[WAITING] == 1;
    [
        n[0] & !0x1F_3FFF != 0,
        n[1] & !0x9FFF != 0,
        (0..4).any(|i| n[2 + i] > 0xF_FFFF),
        (4..8).any(|i| n[2 + i] > 0x3FFF),
        !(n[19] <= 0x3F || (0x50..=0x5F).contains(&n[19])),
        n[CODE] > 15,
        n[STATE] == 2 && n[CLASS] != 2 && n[CLASS] != 3,
        any(&|_, used, phase| phase == 1 && used == 0),
        (0..4).any(|i| n[COUNTERS + i] > 0xF_FFFF),
        (4..8).any(|i| n[COUNTERS + i] > 0x3FFF),
        any(&|words, used, _| words.iter().take(used as usize).any(|&word| word > 0x3F)),
        any(&|_, used, _| used > 8),
        any(&|_, used, _| used == 8) && !loaded,
        any(&|words, used, _| words.iter().skip(used as usize).any(|&word| word != 0)),
        n[SYNC_COUNT] > 65_534,
        n[AGE] > 131_070,
        n[WAITING] == 1 && n[STATE] != 0,
        n[BLIND] > 2,
    ]
}
