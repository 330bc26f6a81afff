//! Tests. Each names the sentence it rests on.

mod account;
mod bench;
mod blind;
mod branches;
mod byte_factors;
mod byte_lists;
mod bytes;
mod bytes_values;
mod console;
mod csr_write;
mod cycle;
mod declines;
mod declines_memory;
mod four_branches;
mod front_space_clear;
mod held_clock;
mod latches;
mod order;
mod order_differs;
mod owed;
mod plain;
mod plain_bytes;
mod plain_state;
mod plain_test;
mod pulses;
mod random;
mod random_bytes;
mod random_lists;
mod random_records;
mod scalers;
mod spoiled;
mod state;
mod state_calls;
mod syncs;
mod table;
mod table_declines;
mod test_account;
mod test_lists;
mod test_mode;
mod test_pulses;

use crate::machine::*;

/// Memory words with code and accept pattern. [Memory.2]
const fn class_1(code: u16, pattern: u16) -> u16 {
    0x0003 | code << 4 | pattern << 8
}
const fn class_2(code: u16, pattern: u16) -> u16 {
    0x0005 | code << 4 | pattern << 8
}
const fn class_3(code: u16, pattern: u16) -> u16 {
    0x0009 | code << 4 | pattern << 8
}

const NONE: [Option<u8>; 4] = [None; 4];
const ALL_ENABLED: u32 = 0x1FFE;

/// A branch's eight places, first to last.
fn words(branch: &Branch) -> [u8; 8] {
    std::array::from_fn(|place| (branch.queue >> (8 * place)) as u8)
}

/// Puts a word into one place, whatever the others hold.
fn set_word(branch: &mut Branch, place: usize, word: u8) {
    branch.queue &= !(0xFF << (8 * place));
    branch.queue |= u64::from(word) << (8 * place);
}

/// A record with its memory, whose calls here must not be declined.
struct Unit {
    record: Supervisor,
    memory: Vec<u16>,
}

impl Unit {
    /// Fresh, all memory words alike.
    fn fresh(word: u16) -> Unit {
        Unit { record: Supervisor::fresh(), memory: vec![word; MEMORY_WORDS] }
    }

    /// All inputs enabled, these registers written, then these CSR bits set.
    fn running(word: u16, registers: &[(u32, u32)], csr: u32) -> Unit {
        let mut unit = Unit::fresh(word);
        unit.write(Supervisor::CONTROL, ALL_ENABLED);
        for &(number, value) in registers {
            unit.write(number, value);
        }
        unit.write(Supervisor::CSR, csr);
        unit
    }

    #[track_caller]
    fn write(&mut self, number: u32, value: u32) {
        assert_eq!(self.record.write_register(number, value), Ok(()), "write {value:X} to register {number}");
    }

    #[track_caller]
    fn read(&mut self, number: u32) -> u32 {
        self.record.read_register(number).unwrap()
    }

    #[track_caller]
    fn tick(&mut self, triggers: u32, lines: u32, acknowledges: u32) -> Answer {
        let answer = self.record.tick(&self.memory, triggers, lines, acknowledges).unwrap();
        assert!(!self.record.is_spoiled());
        answer
    }

    /// A tick with nothing coming in.
    #[track_caller]
    fn quiet(&mut self) -> Answer {
        self.tick(0, 0, 0)
    }

    #[track_caller]
    fn quiet_ticks(&mut self, count: usize) {
        for _ in 0..count {
            self.quiet();
        }
    }

    /// A pulse on input 1 that must be accepted.
    #[track_caller]
    fn accept(&mut self) -> Answer {
        let answer = self.tick(1, 0, 0);
        assert_eq!(answer.accepted, 1);
        answer
    }

    /// Quiet ticks until an outcome other than none, at most 100.
    #[track_caller]
    fn outcome(&mut self) -> Outcome {
        for _ in 0..100 {
            let answer = self.quiet();
            if answer.outcome != Outcome::Nothing {
                return answer.outcome;
            }
        }
        panic!("no outcome");
    }

    /// Quiet ticks until main is Idle, at most 100.
    #[track_caller]
    fn run_to_idle(&mut self) {
        for _ in 0..100 {
            if self.record.main == MainState::Idle {
                return;
            }
            self.quiet();
        }
        panic!("main stays at {:?}", self.record.main);
    }

    fn has(&self, csr_bits: u32) -> bool {
        self.record.csr & csr_bits == csr_bits
    }

    fn used(&self) -> [u8; 4] {
        [0, 1, 2, 3].map(|b: usize| self.record.branches[b].used)
    }

    fn states(&self) -> [BranchState; 4] {
        [0, 1, 2, 3].map(|b: usize| self.record.branches[b].state)
    }
}
