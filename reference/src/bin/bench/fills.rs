//! Fills of the memory: the proved library's call, the model's, and the words that both are fed.
//!
//! The library's are run by the archive `harness`, as the comparison runs every call: a second call beside the tick in
//! `pace` would change what the compiler makes of the tick.

use crate::traffic::Random;
use reference::machine::{Supervisor, INPUTS, MEMORY_WORDS};
use std::hint::black_box;
use std::time::Instant;

/// Fills a memory from each twelve of the words in turn; gives the sum of the declines.
pub type Side = fn(&mut [u16], &[u16]) -> u64;
pub const SIDES: [(&str, Side); 2] = [("proved", proved_fills), ("model", model_fills)];

/// Fills of one run.
pub const FILLS: usize = 64;

/// Numbers of a record, of a call and of an answer, laid out as in crates/numbers and crates/harness; a fresh record is
/// all 0.
const RECORD: usize = 57;
const ANSWER: usize = 8;
const FILL_MEMORY: u64 = 8;

extern "C" {
    fn run_calls(
        record: *mut u64,
        record_len: usize,
        memory: *mut u16,
        memory_len: usize,
        calls: *const u64,
        calls_len: usize,
        answers: *mut u64,
        answers_len: usize,
    ) -> u64;
}

/// Four words in a number, the first lowest.
fn packed(words: &[u16]) -> u64 {
    words.iter().rev().fold(0, |number, &word| number << 16 | u64::from(word))
}

#[inline(never)]
fn proved_fills(memory: &mut [u16], words: &[u16]) -> u64 {
    let (twelves, _) = words.as_chunks::<INPUTS>();
    let call = |w: &[u16; INPUTS]| [FILL_MEMORY, packed(&w[..4]), packed(&w[4..8]), packed(&w[8..])];
    let calls: Vec<u64> = twelves.iter().flat_map(call).collect();
    let mut record = [0; RECORD];
    let mut answers = vec![0; twelves.len() * ANSWER];
    let (record_at, memory_at, answers_at) = (record.as_mut_ptr(), memory.as_mut_ptr(), answers.as_mut_ptr());
    // SAFETY: each pointer goes with the length of its slice, no two overlap, and `run_calls` has no `requires`.
    unsafe {
        run_calls(record_at, RECORD, memory_at, memory.len(), calls.as_ptr(), calls.len(), answers_at, answers.len())
    };
    answers.iter().step_by(ANSWER).sum()
}

#[inline(never)]
fn model_fills(memory: &mut [u16], words: &[u16]) -> u64 {
    let (twelves, _) = words.as_chunks::<INPUTS>();
    let declined = |twelve: &[u16; INPUTS]| match Supervisor::fresh().fill_memory(memory, twelve) {
        Ok(()) => 0,
        Err(decline) => decline.into(),
    };
    twelves.iter().map(declined).sum()
}

/// The shipped words, then others, each with level 1 OK and one class, so that every fill is carried out.
pub fn words() -> Vec<u16> {
    let mut random = Random::new(0x0F1E_2D3C_4B5A_6978);
    let mut any = || random.next() as u16 & 0xFFF0 | [0x3, 0x5, 0x9][random.next() as usize % 3];
    let others = (1..FILLS).flat_map(|_| std::array::from_fn::<u16, INPUTS, _>(|_| any()));
    Supervisor::SHIPPED_WORDS.into_iter().chain(others).collect()
}

/// A memory with something in every place.
pub fn memory() -> Vec<u16> {
    vec![0xFFFF; MEMORY_WORDS]
}

/// The best time of one fill of both sides in microseconds, run by turns; none where a fill was declined or the
/// memories differ afterwards.
pub fn best(runs: usize) -> Option<[f64; 2]> {
    let words = words();
    let mut best = [f64::INFINITY; 2];
    for _ in 0..runs {
        let mut memories = [memory(), memory()];
        let mut declined = [0; 2];
        for (side, (_, run)) in SIDES.iter().enumerate() {
            let start = Instant::now();
            declined[side] = run(black_box(&mut memories[side]), black_box(&words));
            best[side] = best[side].min(start.elapsed().as_secs_f64() * 1e6 / FILLS as f64);
        }
        if declined != [0; 2] || memories[0] != memories[1] {
            println!("DIFFERENT FILLS: declines {declined:?}, memories equal: {}", memories[0] == memories[1]);
            return None;
        }
    }
    Some(best)
}
