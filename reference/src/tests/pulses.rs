//! Pulses, prescalers, ready and the memory word.

use super::*;

#[test]
fn only_enabled_inputs_count() {
    for input in 1..=12 {
        let mut unit = Unit::fresh(0);
        unit.write(Supervisor::CONTROL, 1 << input); // [Control.1] [Pulses.1]
        assert_eq!(unit.tick(0xFFF, 0, 0).stopped, 1 << (input - 1));
        unit.write(Supervisor::CSR, csr::GO);
        let answer = unit.tick(0xFFF, 0, 0);
        assert_eq!((answer.rejected, answer.stopped), (1 << (input - 1), 0));
    }
}

#[test]
fn strobe_mode_asks_for_the_strobe() {
    let mut unit = Unit::fresh(0);
    unit.write(Supervisor::CONTROL, control::STROBE_MODE | ALL_ENABLED); // [Pulses.1]
    assert_eq!(unit.tick(0xFFF, 0, 0).stopped, 0);
    assert_eq!(unit.tick(0xFFF, line::STROBE, 0).stopped, 0xFFF);
    assert_eq!(unit.tick(0xFFF, line::ALL & !line::STROBE, 0).stopped, 0);
}

#[test]
fn without_strobe_mode_the_strobe_is_not_asked() {
    let mut unit = Unit::fresh(0);
    unit.write(Supervisor::CONTROL, ALL_ENABLED);
    assert_eq!(unit.tick(0xFFF, 0, 0).stopped, 0xFFF);
    assert_eq!(unit.tick(0xFFF, line::STROBE, 0).stopped, 0xFFF);
}

#[test]
fn stopped_pulses_leave_the_prescalers() {
    let mut unit = Unit::fresh(0);
    unit.write(Supervisor::CONTROL, ALL_ENABLED);
    unit.write(Supervisor::FACTOR_1, 3);
    unit.tick(1, 0, 0); // [Pulses.2]
    assert_eq!(unit.record.counters[0], 3);
    // Not counted: no change either.
    unit.write(Supervisor::CONTROL, control::OPEN_PRESCALES);
    assert_eq!(unit.tick(1, 0, 0).scaled, 0);
    assert_eq!(unit.record.counters[0], 3);
}

#[test]
fn prescalers_count_while_not_ready() {
    let mut unit = Unit::fresh(0);
    unit.write(Supervisor::CONTROL, control::OPEN_PRESCALES | ALL_ENABLED);
    unit.write(Supervisor::FACTOR_1, 1);
    assert_eq!(unit.tick(1, 0, 0).scaled, 1); // [Pulses.3]
    assert_eq!(unit.tick(1, 0, 0).lost, 1); // [Pulses.4] [Ready.2]
    assert_eq!(unit.record.counters[0], 1);
}

#[test]
fn inputs_9_to_12_always_pass() {
    let mut unit = Unit::running(0, &[], csr::GO);
    for _ in 0..3 {
        let answer = unit.tick(0xF00, 0, 0);
        assert_eq!(answer.lost | answer.rejected, 0xF00); // [Pulses.5]
    }
}

#[test]
fn each_prescaler_counts_by_itself() {
    let factors: Vec<(u32, u32)> = (0..8).map(|i| (Supervisor::FACTOR_1 + i, i)).collect();
    let mut unit = Unit::running(0, &factors, csr::GO);
    for tick in 1..=200u32 {
        let answer = unit.tick(0xFFF, 0, 0);
        let passed = answer.lost | answer.rejected;
        for input in 0..8 {
            let passes = tick % (input + 1) == 0; // [Account.17]
            assert_eq!(u32::from(passed) >> input & 1 != 0, passes, "tick {tick}, input {input}");
        }
        assert_eq!(answer.scaled | passed, 0xFFF);
    }
}

#[test]
fn pattern_is_the_place() {
    let mut unit = Unit::running(0, &[(Supervisor::FACTOR_1, 1)], csr::GO);
    unit.memory[0x802] = class_1(9, 0xA5); // [Memory.1]

    // Input 1 is scaled away, so the pattern is inputs 2 and 12. [Ready.3]
    let answer = unit.tick(0x803, 0, 0);
    assert_eq!((answer.scaled, answer.accepted), (1, 0x802));
    assert_eq!(answer.lines, 0xA501); // [Ready.5]
    assert_eq!((unit.record.code, unit.record.accept_pattern, unit.record.class), (9, 0xA5, 1));
}

#[test]
fn nothing_passed_latches_nothing() {
    // Place 0 would be OK, but without a passed pulse no pattern is latched. [Ready.3]
    let mut unit = Unit::running(class_1(5, 1), &[(Supervisor::FACTOR_1, 1)], csr::GO);
    assert_eq!(unit.quiet().lines, 0);
    assert_eq!(unit.tick(1, 0, 0).scaled, 1);
    assert_eq!(unit.record.main, MainState::Idle);
}

#[test]
fn lowest_class_bit_decides() {
    // Class bits 1–3 with OK, and without. [Memory.3]
    let expected = [0, 1, 2, 1, 3, 1, 2, 1];
    for (bits, class) in expected.into_iter().enumerate() {
        let bits = bits as u16;
        let mut unit = Unit::running(bits << 1 | 1, &[], csr::GO);
        let answer = unit.tick(1, 0, 0);
        assert_eq!(answer.accepted != 0, class != 0);
        assert_eq!(unit.record.class, class);
        let main = match class {
            0 => MainState::Idle,
            1 => MainState::Delay,
            _ => MainState::Wait2,
        };
        assert_eq!(unit.record.main, main); // [Main.2]
        let mut not_ok = Unit::running(bits << 1, &[], csr::GO);
        assert_eq!(not_ok.tick(1, 0, 0).rejected, 1); // [Ready.4]
    }
}

#[test]
fn every_condition_of_ready() {
    let word = class_1(5, 1);
    let accepted = |unit: &mut Unit, lines| {
        let answer = unit.tick(0x800, lines, 0);
        assert_eq!(answer.accepted | answer.lost, 0x800);
        answer.accepted != 0
    };
    let running = |csr| Unit::running(word, &[], csr);
    // [Ready.1]
    assert!(accepted(&mut running(csr::GO), 0));
    assert!(accepted(&mut running(csr::GO), line::STROBE | 0x1E));
    assert!(!accepted(&mut running(csr::GO), line::FRONT_BUSY));
    assert!(!accepted(&mut running(csr::GO | csr::OVERRIDE_INHIBIT), line::FRONT_BUSY));
    assert!(!accepted(&mut running(csr::GO), line::INHIBIT));
    assert!(accepted(&mut running(csr::GO | csr::OVERRIDE_INHIBIT), line::INHIBIT));
    for bit in [csr::PAUSE_AND_SYNC, csr::FORCE_SYNC] {
        assert!(accepted(&mut running(csr::GO | bit), 0), "without bit 4 no sync is wanted");
        assert!(!accepted(&mut running(csr::GO | bit | csr::ENABLE_SYNC), 0));
    }
    assert!(accepted(&mut running(csr::GO | csr::ENABLE_SYNC | csr::PAUSE_ON_NEXT_SYNC), 0));
    // Main not Idle.
    let mut busy = running(csr::GO);
    busy.accept();
    assert!(!accepted(&mut busy, 0));
    // User sync waiting, though no longer wanted.
    let mut waiting = Unit::running(word, &[(Supervisor::ROC_ENABLE, 1)], csr::GO | csr::FORCE_SYNC | csr::ENABLE_SYNC);
    waiting.quiet();
    waiting.write(Supervisor::CSR, (csr::FORCE_SYNC | csr::ENABLE_SYNC) << 16);
    assert!(!accepted(&mut waiting, 0));
    // Blind. [Blind.2]
    for count in 0..=2 {
        let mut unit = running(csr::GO);
        unit.record.blind = count;
        assert_eq!(accepted(&mut unit, 0), count == 0);
    }
    // GO clear, prescales open.
    let mut open = Unit::fresh(word);
    open.write(Supervisor::CONTROL, control::OPEN_PRESCALES | ALL_ENABLED);
    assert!(!accepted(&mut open, 0));
}

#[test]
fn ready_has_no_depth_test() {
    // A word is held and bit 9 makes the depth 1, but main is Idle again. [Open: T4]
    let mut unit = Unit::running(class_1(5, 1), &[(Supervisor::ROC_ENABLE, 1)], csr::GO);
    unit.accept();
    unit.run_to_idle();
    unit.write(Supervisor::CSR, csr::ROC_LOCK);
    assert_eq!(unit.used()[0], 1);
    assert_eq!(unit.accept().lost, 0);
    assert_eq!(unit.outcome(), Outcome::Event(5));
    unit.quiet_ticks(50);
    assert_eq!((unit.record.main, unit.used()[0]), (MainState::Space, 2));
}

#[test]
fn inhibit_sets_status_16_always() {
    for csr_bits in [0, csr::GO, csr::OVERRIDE_INHIBIT, csr::GO | csr::OVERRIDE_INHIBIT] {
        let mut unit = Unit::running(0, &[], csr_bits);
        unit.quiet();
        assert!(!unit.has(csr::INHIBIT));
        unit.tick(0, line::INHIBIT, 0); // [Ready.6]
        assert!(unit.has(csr::INHIBIT));
        unit.quiet();
        assert!(unit.has(csr::INHIBIT), "it stays");
    }
    let mut busy = Unit::running(class_2(5, 1), &[], csr::GO);
    busy.accept();
    busy.tick(0, line::INHIBIT, 0);
    assert!(busy.has(csr::INHIBIT));
}

#[test]
fn an_accept_touches_nothing_else() {
    // Idle with a stale late mark, raised lines and c: no list of calls gets there, but it is not spoiled.
    // [Open: A5] [Open: M1]
    let mut unit = Unit::running(class_1(5, 0x81), &[], csr::GO);
    unit.record.late = true;
    unit.record.raised = raised::LEVEL_3_START;
    unit.record.clear_count = 9;
    unit.record.age = 77;
    let before = unit.record.clone();
    let answer = unit.accept();
    assert_eq!(answer.lines, 0x8129);
    let expected = Supervisor {
        main: MainState::Delay,
        age: 0,
        class: 1,
        code: 5,
        accept_pattern: 0x81,
        raised: raised::LEVEL_1_OK | raised::LEVEL_3_START,
        scalers: [0, 1],
        latched: true,
        ..before
    };
    assert_eq!(unit.record, expected);
    // Outside Clear c does not fall; the stale mark makes the word late; the move to Idle drops all.
    unit.quiet();
    assert_eq!(unit.record.clear_count, 9);
    assert_eq!(unit.quiet().outcome, Outcome::Event(0x25));
    assert_eq!(unit.quiet().lines, 0);
    assert_eq!((unit.record.late, unit.record.clear_count), (false, 0));
}
