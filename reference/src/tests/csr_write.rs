//! CSR writes. [CSRWrite.1]–[CSRWrite.3]

use super::*;

fn with_csr(before: u32) -> Unit {
    let mut unit = Unit::fresh(0);
    unit.record.csr = before;
    unit
}

#[track_caller]
fn expect(before: u32, value: u32, after: u32) {
    let mut unit = with_csr(before);
    unit.write(Supervisor::CSR, value);
    assert_eq!(unit.read(Supervisor::CSR), after, "CSR {before:X}, written {value:X}");
}

#[test]
fn bits_0_to_13_set() {
    for bit in 0..14 {
        expect(0, 1 << bit, 1 << bit); // [CSRWrite.2a]
        expect(0x0000_0AAA, 1 << bit, 0x0000_0AAA | 1 << bit);
    }
    expect(0, 0x0000_3FFF, 0x0000_3FFF); // [Test.10]
    expect(0x001F_0A5A, 0, 0x001F_0A5A);
}

#[test]
fn bits_16_to_29_clear() {
    for bit in 0..14 {
        expect(0x001F_3FFF, 1 << (bit + 16), 0x001F_3FFF & !(1 << bit));
    }
    expect(0x001F_3FFF, 0x3FFF_0000, 0x001F_0000); // status bits are not written
}

#[test]
fn clear_wins() {
    for bit in 0..14 {
        let both = 1 << bit | 1 << (bit + 16);
        expect(0, both, 0); // [CSRWrite.2a]
        expect(0x0000_3FFF, both, 0x0000_3FFF & !(1 << bit));
    }
}

#[test]
fn go_rising_clears_the_status_bits() {
    expect(0x001F_0000, 0x0000_0001, 0x0000_0001); // [CSRWrite.2b]
    expect(0x001F_0FFE, 0x0000_0001, 0x0000_0FFF);
    // GO already set: no rise.
    expect(0x001F_0001, 0x0000_0001, 0x001F_0001);
    // Other bits rising: no.
    expect(0x001F_0000, 0x0000_0FFE, 0x001F_0FFE);
}

#[test]
fn go_set_and_cleared_in_one_write_is_no_rise() {
    expect(0x001F_0000, 0x0001_0001, 0x001F_0000); // [Open: R1]
    expect(0x001F_0001, 0x0001_0001, 0x001F_0000);
}

#[test]
fn bit_31_clears_the_status_bits() {
    expect(0x001F_0FFF, 0x8000_0000, 0x0000_0FFF); // [CSRWrite.2c]
    expect(0x001F_0000, 0x8000_0010, 0x0000_0010);
    expect(0x001F_0FFF, 0x8FFF_0000, 0);
}

#[test]
fn reset_clears_bits_0_to_3_and_keeps_the_rest() {
    expect(0x001F_3FFF, csr::RESET, 0x001F_3FF0); // [CSRWrite.2d] [Open: R5] [Test.8b]
    expect(0, csr::RESET | 0x0FFF, 0x0000_0FF0);
    expect(0x001F_0FFF, csr::RESET | csr::CLEAR_STATUS | 0x0FF0_0000, 0);
}

#[test]
fn go_with_reset_rises_first() {
    expect(0x001F_0000, csr::RESET | csr::GO, 0); // [Open: R1]
    expect(0x001F_0001, csr::RESET | csr::GO, 0x001F_0000);
    expect(0x001F_0000, csr::RESET | csr::GO | csr::GO << 16, 0x001F_0000);
}

/// A unit in which as much as possible is not fresh: in a cycle, words held, counters on their way.
fn busy() -> Unit {
    let registers = [
        (Supervisor::CONTROL, 0x9FFF),
        (Supervisor::FACTOR_1, 7),
        (Supervisor::FACTOR_8, 3),
        (Supervisor::ROC_ENABLE, 0x8040_2010),
        (Supervisor::SYNC_INTERVAL, 5),
        (Supervisor::T1, 1),
        (Supervisor::T2, 2),
        (Supervisor::T3, 3),
        (Supervisor::T4, 4),
        (Supervisor::T5, 5),
        (Supervisor::ASSIGN, 0x0E),
    ];
    let mut unit = Unit::running(class_3(9, 0x81), &registers, 0x0000_0FF1 & !csr::ROC_LOCK & !csr::ROC_LOCK_BRANCH_4);
    for _ in 0..2 {
        assert_eq!(unit.tick(0x883, line::STROBE | line::INHIBIT, 0).accepted, 0x802);
        unit.tick(0, line::LEVEL_2_PASS, 0);
        unit.tick(0, line::LEVEL_3_FAIL, 0);
        assert_eq!(unit.outcome(), Outcome::Event(0x29));
        unit.run_to_idle();
    }
    unit.tick(0x802, line::STROBE, 0);
    unit.tick(0, line::LEVEL_2_PASS, 0);
    unit.write(Supervisor::CSR, 0x0000_000E);
    assert_eq!(unit.used(), [2; 4]);
    assert_eq!((unit.record.main, unit.record.sync_count, unit.record.scalers), (MainState::Wait3, 2, [2, 3]));
    assert_eq!((unit.record.counters[0], unit.record.counters[7]), (5, 1));
    unit.record.blind = 2; // no list of calls has it in a cycle
    unit.write(Supervisor::TEST, 0x7FBD);
    assert_eq!(unit.record.test, 0x7F3D);
    assert_eq!((unit.read(Supervisor::SCALER_0), unit.read(Supervisor::SCALER_1)), (2, 3));
    assert_eq!(unit.record.latches, [2, 3]);
    unit
}

#[test]
fn reset_in_full() {
    let mut unit = busy();
    let before = unit.record.clone();
    let memory = unit.memory.clone();
    unit.write(Supervisor::CSR, csr::RESET);
    let expected = Supervisor {
        csr: before.csr & !0xF,
        control: before.control,
        factors: before.factors,
        counters: before.factors,
        roc_enable: before.roc_enable,
        sync_interval: before.sync_interval,
        t1: before.t1,
        t2: before.t2,
        t3: before.t3,
        t4: before.t4,
        t5: before.t5,
        latches: before.latches, // [Bytes.5b]
        assign: before.assign,
        kept_lines: before.kept_lines,
        latched: before.latched,
        kept_acknowledges: before.kept_acknowledges,
        ..Supervisor::fresh()
    };
    assert_eq!(unit.record, expected); // [CSRWrite.2d] [Main.17] [State.3]
    assert_eq!(unit.memory, memory); // [CSRWrite.3]
    assert!(!unit.record.is_active());
}

#[test]
fn reset_ends_a_user_sync() {
    let mut unit = Unit::running(0, &[(Supervisor::ROC_ENABLE, 1)], csr::FORCE_SYNC | csr::ENABLE_SYNC);
    unit.quiet_ticks(3);
    assert!(unit.record.user_sync_waiting);
    unit.write(Supervisor::CSR, csr::RESET);
    assert!(!unit.record.user_sync_waiting && !unit.record.is_active());
}

#[test]
fn initialize_in_full() {
    for rest in [0, csr::RESET, 0xBFFF_3FFF, 0xBFFF_3FFF | csr::RESET] {
        let mut unit = busy();
        let memory = unit.memory.clone();
        unit.write(Supervisor::CSR, csr::INITIALIZE | rest); // the rest is ignored [CSRWrite.1]
        assert_eq!(unit.record, Supervisor::fresh());
        assert_eq!(unit.memory, memory);
    }
}

#[test]
fn initialize_does_not_save_a_bad_value() {
    let mut unit = busy();
    let before = unit.record.clone();
    let value = csr::INITIALIZE | 1 << 30;
    assert_eq!(unit.record.write_register(Supervisor::CSR, value), Err(5)); // [Open: R2]
    assert_eq!(unit.record, before);
    for bit in [12, 13, 28, 29] {
        let mut unit = busy();
        unit.write(Supervisor::CSR, csr::INITIALIZE | 1 << bit); // [Test.10]
        assert_eq!(unit.record, Supervisor::fresh());
    }
}

#[test]
fn a_write_to_17_to_19_leaves_the_csr_while_active() {
    let mut unit = busy();
    let before = unit.record.csr;
    for number in 17..=19 {
        unit.write(number, 0);
    }
    assert_eq!(unit.record.csr, before);
}
