//! Register 20, STATE: what the calls do with it and with what it keeps. [State.3] [State.7] [State.8a] [State.8b]

use super::state::{latched, put, state_of, FRESH, STATE};
use super::*;

impl Unit {
    /// A tick that must be declined with this number and change nothing.
    #[track_caller]
    fn declined(&mut self, words: usize, input: [u32; 3], number: u8) {
        let before = self.record.clone();
        let [triggers, lines, acknowledges] = input;
        assert_eq!(self.record.tick(&self.memory[..words], triggers, lines, acknowledges), Err(number));
        assert_eq!(self.record, before);
    }
}

#[test]
fn controllers_are_those_enabled_at_the_read() {
    let mut unit = Unit::running(0, &[(Supervisor::ROC_ENABLE, 0x01)], 0);
    unit.tick(0, 0, 0x02);
    assert_eq!((unit.shows(21), unit.shows(22)), (false, false));
    for (enabled, and, or) in [(0x02, true, true), (0x03, false, true), (0x00, true, false), (0x04, false, false)] {
        unit.write(Supervisor::ROC_ENABLE, enabled);
        assert_eq!((unit.shows(21), unit.shows(22)), (and, or), "enabled {enabled:X}");
        // [State.7]
    }
    // Acknowledges that were not enabled in their tick are kept, and only those of the latest tick are.
    unit.tick(0, 0, 0x04);
    assert_eq!((unit.shows(21), unit.shows(22)), (true, true)); // [State.3]
}

#[test]
fn reset_keeps_the_latest_tick_and_initialize_does_not() {
    for word in [0, class_3(5, 1)] {
        let mut unit = latched(word);
        unit.write(Supervisor::CSR, csr::RESET);
        let kept = 1 << 2 | 1 << 7 | 1 << 12 | 1 << 22 | 1 << 25; // [State.3]
        assert_eq!(unit.read(STATE), (FRESH | kept) & !(1 << 24));
        unit.write(Supervisor::CSR, csr::INITIALIZE);
        assert_eq!(unit.read(STATE), FRESH);
        unit.write(Supervisor::ROC_ENABLE, u32::MAX);
        assert_eq!(unit.read(STATE), 0x0004_2000, "the acknowledges are gone too");
    }
}

#[test]
fn a_declined_tick_is_not_the_latest() {
    let mut unit = latched(0);
    let value = unit.read(STATE);
    unit.declined(4_095, [0, line::ALL, u32::MAX], 2); // [Declines.5b]
    unit.declined(4_096, [0x1000, line::ALL, u32::MAX], 5); // [Declines.5c]
    unit.declined(4_096, [0, 0xFF, u32::MAX], 5);
    assert_eq!(unit.read(STATE), value); // [State.3]
    unit.record.age = Supervisor::AGE_LIMIT + 1;
    unit.declined(4_096, [0, line::ALL, u32::MAX], 1); // [Declines.5a]
}

#[test]
fn a_write_gets_3_and_a_spoiled_record_1() {
    for csr_bits in [0, csr::GO, csr::ENABLE_SYNC | csr::FORCE_SYNC] {
        for value in [0, 1, FRESH, u32::MAX] {
            let mut unit = Unit::running(0, &[], csr_bits);
            let before = unit.record.clone();
            assert_eq!(unit.record.write_register(STATE, value), Err(3)); // [State.8b]
            assert_eq!(unit.record, before, "no status bit either");
            unit.record.age = Supervisor::AGE_LIMIT + 1;
            assert_eq!(unit.record.write_register(STATE, value), Err(1)); // [Declines.2a]
            assert_eq!(unit.record.read_register(STATE), Err(1)); // [Declines.3a]
        }
    }
    assert_eq!(Supervisor::fresh().read_register(STATE + 1), Err(3)); // [Declines.3a]
}

#[test]
fn odd_kept_lines_spoil_nothing() {
    for lines in 0x80..=0xFF {
        let even = state_of(|r| (r.csr, r.kept_lines) = (csr::GO, lines & 0x7F));
        assert_eq!(state_of(|r| (r.csr, r.kept_lines) = (csr::GO, lines)), even);
        // [State.3]
    }
    let mut unit = put(|r| r.kept_lines = 0x80);
    unit.write(Supervisor::CSR, csr::RESET);
    assert_eq!(unit.record.kept_lines, 0x80);
    unit.quiet();
    assert_eq!(unit.record.kept_lines, 0);
}
