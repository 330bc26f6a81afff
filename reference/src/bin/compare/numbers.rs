//! The machines as the comparison sees them: records, calls and replies are numbers, laid out as in crates/numbers and
//! crates/harness.

use crate::accounts::Account;
use reference::machine::INPUTS;

/// Registers 0–19, counters, main, sync count, user sync, three numbers for each branch, the blind count, what is kept
/// of the latest tick, the latches of the two scalers, then what waits.
pub const RECORD: usize = 57;
pub const COUNTERS: usize = 20;
pub const STATE: usize = 28;
pub const AGE: usize = 29;
pub const CLEAR: usize = 30;
pub const CLASS: usize = 31;
pub const CODE: usize = 32;
pub const PATTERN: usize = 33;
pub const RAISED: usize = 34;
pub const LATE: usize = 35;
pub const SYNC_COUNT: usize = 36;
pub const WAITING: usize = 37;
/// Words, length and state of branch b stand from `BRANCH + 3 * b` on.
pub const BRANCH: usize = 38;
/// A byte in the proved record, so never above 255.
pub const BLIND: usize = 50;
/// A word of 32 bits in the proved record.
pub const KEPT_LINES: usize = 51;
/// 0 or 1.
pub const LATCHED: usize = 52;
/// A word of 32 bits too.
pub const KEPT_ACKNOWLEDGES: usize = 53;
/// Of scaler 0; that of scaler 1 follows. Words of 32 bits.
pub const LATCH: usize = 54;
/// What was written to TEST and waits, the single step as bit 7. A word of 32 bits.
pub const TEST: usize = 56;

pub const FIELDS: [&str; RECORD] = [
    "CSR",
    "control",
    "factor 1",
    "factor 2",
    "factor 3",
    "factor 4",
    "factor 5",
    "factor 6",
    "factor 7",
    "factor 8",
    "ROC enable",
    "sync interval",
    "T1",
    "T2",
    "T3",
    "T4",
    "T5",
    "scaler 0",
    "scaler 1",
    "assign",
    "counter 1",
    "counter 2",
    "counter 3",
    "counter 4",
    "counter 5",
    "counter 6",
    "counter 7",
    "counter 8",
    "main",
    "age",
    "c",
    "class",
    "code",
    "accept pattern",
    "raised lines",
    "late",
    "sync count",
    "waiting",
    "words 1",
    "used 1",
    "branch 1",
    "words 2",
    "used 2",
    "branch 2",
    "words 3",
    "used 3",
    "branch 3",
    "words 4",
    "used 4",
    "branch 4",
    "blind count",
    "kept lines",
    "latched",
    "kept acknowledges",
    "latch 0",
    "latch 1",
    "waiting TEST bits",
];

pub type Record = [u64; RECORD];
pub const FRESH: Record = [0; RECORD];

/// Kind and arguments.
pub type Call = [u64; 4];
pub const WRITE_REGISTER: u64 = 0;
pub const READ_REGISTER: u64 = 1;
pub const WRITE_MEMORY: u64 = 2;
pub const READ_MEMORY: u64 = 3;
pub const TICK: u64 = 4;
pub const MAKE_FRESH: u64 = 5;
/// Number, value, run.
pub const WRITE_BYTES: u64 = 6;
/// Number, 0, run.
pub const READ_BYTES: u64 = 7;
/// Twelve words, four in each number, that of input 1 in the lowest bits of the first.
pub const FILL_MEMORY: u64 = 8;
pub const KINDS: [&str; 9] = [
    "register write",
    "register read",
    "memory write",
    "memory read",
    "tick",
    "fresh",
    "register write by bytes",
    "register read by bytes",
    "memory fill",
];

/// A run of bytes in one number: the first byte, and from bit 32 on the count.
pub fn packed(first: u32, count: u32) -> u64 {
    u64::from(first) | u64::from(count) << 32
}

/// First byte and count.
pub fn unpacked(run: u64) -> (u32, u32) {
    (run as u32, (run >> 32) as u32)
}

/// The generator's call with these words.
pub fn fill(words: &[u16; INPUTS]) -> Call {
    let four = |first: usize| words[first..first + 4].iter().rev().fold(0, |n, &word| n << 16 | u64::from(word));
    [FILL_MEMORY, four(0), four(4), four(8)]
}

/// The words of a call of the generator.
pub fn words_of(call: Call) -> [u16; INPUTS] {
    std::array::from_fn(|at| (call[1 + at / 4] >> (16 * (at % 4))) as u16)
}

/// 0 or the decline; value read; masks by two; accepted and lines out; outcome; finished; shown.
pub type Reply = [u64; 8];

/// [Active.1]
pub fn is_active(n: &Record) -> bool {
    let wanted = n[0] & 0xC != 0 && n[0] & 0x10 != 0;
    let busy = (0..4).any(|b| n[BRANCH + 3 * b + 1] != 0 || n[BRANCH + 3 * b + 2] != 0);
    n[0] & 1 != 0 || n[STATE] != 0 || n[WAITING] == 1 || wanted || busy
}

/// A machine that makes calls on records of numbers, and the account that is kept beside it.
pub trait Machine {
    type Account: Account;

    fn call(record: &mut Record, memory: &mut [u16], call: Call) -> Reply;
}

extern "C" {
    fn run_calls(
        record: *mut u64,
        record_len: usize,
        memory: *mut u16,
        memory_len: usize,
        calls: *const u64,
        calls_len: usize,
        answers: *mut u64,
        answers_len: usize,
    ) -> u64;
}

/// The proved library on a list of calls.
pub fn proved(record: &mut Record, memory: &mut [u16], calls: &[Call], replies: &mut [Reply]) {
    let calls = calls.as_flattened();
    let replies = replies.as_flattened_mut();
    // SAFETY: each pointer goes with the length of the slice that it is from, and no two of the slices overlap.
    // `run_calls` has no `requires`.
    let ran = unsafe {
        run_calls(
            record.as_mut_ptr(),
            record.len(),
            memory.as_mut_ptr(),
            memory.len(),
            calls.as_ptr(),
            calls.len(),
            replies.as_mut_ptr(),
            replies.len(),
        )
    };
    assert_eq!(ran as usize, calls.len() / 4, "calls run");
}
