//! The two sides: the proved library's loop of ticks, and the same loop over the model.

use crate::traffic::INPUTS;
use reference::machine::{Answer, Count20, Count40, Outcome, Supervisor};

/// Runs so many ticks over a memory and a table of inputs; gives the sum of all answers.
pub type Side = fn(u64, &[u16], &[u64]) -> u64;
pub const SIDES: [(&str, Side); 2] = [("proved", proved_ticks), ("model", model_ticks)];

extern "C" {
    fn run_ticks(n: u64, memory: *const u16, memory_len: usize, table: *const u64, table_len: usize) -> u64;
}

#[inline(never)]
fn proved_ticks(n: u64, memory: &[u16], table: &[u64]) -> u64 {
    // SAFETY: each pointer goes with the length of its slice, and `run_ticks` has no `requires`.
    unsafe { run_ticks(n, memory.as_ptr(), memory.len(), table.as_ptr(), table.len()) }
}

// ---- the same loop over the model

fn fold(sum: u64, n: u64) -> u64 {
    sum.rotate_left(5) ^ n
}

fn slot(word: Option<u8>) -> u64 {
    word.map_or(255, u64::from)
}

#[inline(always)]
fn folded(sum: u64, answer: &Answer) -> u64 {
    let masks = u64::from(answer.stopped)
        | u64::from(answer.scaled) << 12
        | u64::from(answer.lost) << 24
        | u64::from(answer.rejected) << 36
        | u64::from(answer.accepted) << 48;
    let outcome = match answer.outcome {
        Outcome::Nothing => 0,
        Outcome::Cleared => 1,
        Outcome::Event(word) => 2 | u64::from(word) << 2,
        Outcome::Tag(word) => 3 | u64::from(word) << 2,
    };
    let mut sides = 0;
    for b in 0..4 {
        sides |= (slot(answer.finished[b]) | slot(answer.shown[b]) << 8) << (16 * b);
    }
    fold(fold(fold(sum, masks), u64::from(answer.lines) | outcome << 16), sides)
}

fn record_in(table: &[u64]) -> Supervisor {
    let register = |number: usize| table[INPUTS + number] as u32;
    let factors = std::array::from_fn(|i| register(2 + i));
    Supervisor {
        csr: register(0),
        control: register(1),
        factors,
        counters: factors,
        roc_enable: register(10),
        sync_interval: register(11),
        t1: Count40(register(12)),
        t2: Count40(register(13)),
        t3: Count40(register(14)),
        t4: Count40(register(15)),
        t5: Count20(register(16)),
        scalers: [register(17), register(18)],
        assign: register(19),
        test: register(21),
        ..Supervisor::fresh()
    }
}

#[inline(never)]
fn model_ticks(n: u64, memory: &[u16], table: &[u64]) -> u64 {
    let mut record = record_in(table);
    let mut sum = 0;
    for i in 0..n {
        let packed = table[i as usize % INPUTS];
        let (triggers, lines, acknowledges) = (packed & 0xFFF, packed >> 12 & 0x7F, packed >> 32);
        let declined = Answer {
            stopped: 0,
            scaled: 0,
            lost: 0,
            rejected: 0,
            accepted: 0,
            lines: 0,
            outcome: Outcome::Nothing,
            finished: [None; 4],
            shown: [None; 4],
        };
        sum = match record.tick(memory, triggers as u32, lines as u32, acknowledges as u32) {
            Ok(answer) => folded(sum, &answer),
            Err(_) => folded(sum, &declined) ^ 1 << 37,
        };
    }
    sum = fold(sum, u64::from(record.scalers[0]) | u64::from(record.scalers[1]) << 32);
    sum = fold(sum, u64::from(record.csr) | u64::from(record.sync_count) << 32);
    let latest = u64::from(record.kept_lines) | u64::from(record.latched) << 8;
    sum = fold(sum, latest | u64::from(record.kept_acknowledges) << 32);
    sum = fold(sum, u64::from(record.latches[0]) | u64::from(record.latches[1]) << 32);
    fold(sum, u64::from(record.test))
}
