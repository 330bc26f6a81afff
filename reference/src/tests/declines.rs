//! Every decline of every call but those of the memory, their order, and what each leaves. [Declines.1a]–[Declines.6]

use super::*;

/// A record spoiled by one clause.
pub fn spoiled() -> Supervisor {
    let mut record = Supervisor::fresh();
    record.age = Supervisor::AGE_LIMIT + 1;
    record
}

pub fn active() -> Supervisor {
    let mut record = Supervisor::fresh();
    record.write_register(Supervisor::CSR, csr::GO).unwrap();
    record
}

/// All ways to be active, each alone. [Active.1]
pub fn ways_to_be_active() -> Vec<Supervisor> {
    let mut ways = Vec::new();
    let mut way = |change: fn(&mut Supervisor)| {
        let mut record = Supervisor::fresh();
        change(&mut record);
        assert!(!record.is_spoiled());
        ways.push(record);
    };
    way(|r| r.csr = csr::GO);
    way(|r| r.main = MainState::Delay);
    way(|r| r.main = MainState::Wait3);
    way(|r| r.main = MainState::Front);
    way(|r| r.main = MainState::Space);
    way(|r| r.main = MainState::SyncHold);
    way(|r| r.main = MainState::Clear);
    way(|r| {
        r.main = MainState::Wait2;
        r.class = 2;
    });
    way(|r| r.user_sync_waiting = true);
    way(|r| r.csr = csr::PAUSE_AND_SYNC | csr::ENABLE_SYNC);
    way(|r| r.csr = csr::FORCE_SYNC | csr::ENABLE_SYNC);
    way(|r| r.branches[0].used = 1);
    way(|r| r.branches[3].used = 1);
    way(|r| r.branches[1].state = BranchState::Drop);
    way(|r| {
        r.branches[2].used = 1;
        r.branches[2].state = BranchState::Strobe;
    });
    ways
}

#[test]
fn what_is_active_and_what_is_not() {
    assert!(ways_to_be_active().iter().all(Supervisor::is_active));
    let mut record = Supervisor::fresh();
    assert!(!record.is_active());
    for bits in [csr::PAUSE_AND_SYNC, csr::FORCE_SYNC, csr::ENABLE_SYNC, 0x001F_0FFE & !csr::ENABLE_SYNC, 0x001F_0FF2] {
        record.csr = bits;
        assert!(!record.is_active(), "CSR {bits:X}");
    }
}

/// Whether a write of `value` to an inactive record is taken.
fn takes(number: u32, value: u32) -> Result<(), u8> {
    let mut record = Supervisor::fresh();
    let answer = record.write_register(number, value);
    if answer.is_err() {
        assert_eq!(record, Supervisor::fresh());
    }
    answer
}

#[test]
fn register_write_1() {
    for number in 0..=22 {
        let mut record = spoiled();
        assert_eq!(record.write_register(number, u32::MAX), Err(1)); // [Declines.2a]
        assert_eq!(record, spoiled());
    }
    // INITIALIZE too; only fresh gives a new one. [Open: A3]
    assert_eq!(spoiled().write_register(0, csr::INITIALIZE), Err(1));
}

#[test]
fn register_write_3() {
    for number in [20, 22, 255, u32::MAX] {
        assert_eq!(takes(number, 0), Err(3)); // [Declines.2b]
        assert_eq!(takes(number, u32::MAX), Err(3), "before 5");
        let mut record = active();
        assert_eq!(record.write_register(number, 0), Err(3), "before 4"); // [Open: A1]
        assert_eq!(record, active());
    }
}

#[test]
fn register_write_4() {
    for way in ways_to_be_active() {
        for number in (0..=19).chain([21]) {
            let mut record = way.clone();
            let answer = record.write_register(number, 0);
            if (1..=16).contains(&number) {
                assert_eq!(answer, Err(4)); // [Declines.2c]
                assert_eq!(record, Supervisor { csr: way.csr | csr::WRITE_ERROR, ..way.clone() });
            } else {
                assert_eq!(answer, Ok(()));
                assert_eq!(record.csr, way.csr);
            }
        }
    }
    let mut record = active();
    assert_eq!(record.write_register(Supervisor::T5, 0x100), Err(4), "before 5");
}

#[test]
fn register_write_5_on_every_bit() {
    for number in (0..=19u32).chain([21]) {
        let width = match number {
            0 => 0xBFFF_FFFF,
            1 => 0x9FFF,
            2..=5 => 0xF_FFFF,
            6..=9 => 0x3FFF,
            11..=15 => 0xFFFF,
            16 => 0xFF,
            10 | 17 | 18 => u32::MAX,
            21 => 0x7FBD, // [Test.5a]
            _ => 0x3F,
        };
        for bit in 0..32 {
            let value = 1 << bit;
            let expected = if width & value != 0 { Ok(()) } else { Err(5) }; // [Declines.2d] [Widths.1] [Widths.2]
            assert_eq!(takes(number, value), expected, "register {number}, bit {bit}");
            if expected.is_err() {
                assert_eq!(takes(number, value | 1), Err(5), "register {number}, bit {bit} with bit 0");
            }
        }
        assert_eq!(takes(number, width), Ok(()), "register {number}, all bits");
    }
}

#[test]
fn register_write_5_while_active() {
    let mut record = active();
    assert_eq!(record.write_register(Supervisor::CSR, 1 << 30), Err(5));
    assert_eq!(record.write_register(Supervisor::ASSIGN, 0x40), Err(5));
    assert_eq!(record, active(), "5 sets no status bit"); // [Open: A1]
}

#[test]
fn registers_store_what_is_written() {
    let mut record = Supervisor::fresh();
    let values: Vec<(u32, u32)> = (1..=16).map(|n| (n, 0x11 + n)).chain([(19, 0x5A)]).collect();
    for &(number, value) in &values {
        record.write_register(number, value).unwrap();
    }
    for &(number, value) in &values {
        assert_eq!(record.read_register(number), Ok(value)); // [Registers.1] [Declines.3b]
    }
    assert_eq!(record.factors, [0x13, 0x14, 0x15, 0x16, 0x17, 0x18, 0x19, 0x1A]);
    assert_eq!(record.counters, record.factors); // [Registers.2]
}

#[test]
fn a_read_gives_the_factor_not_the_counter() {
    let mut unit = Unit::running(0, &[(Supervisor::FACTOR_1, 5)], csr::GO);
    unit.tick(1, 0, 0);
    assert_eq!(unit.record.counters[0], 4);
    assert_eq!(unit.read(Supervisor::FACTOR_1), 5); // [Declines.3b]
}

#[test]
fn register_read_1_and_3() {
    for number in 0..=21 {
        let mut record = spoiled();
        assert_eq!(record.read_register(number), Err(1)); // [Declines.3a]
        assert_eq!(record, spoiled());
    }
    for number in [21, 22, 0x100, u32::MAX] {
        assert_eq!(Supervisor::fresh().read_register(number), Err(3));
    }
    for way in ways_to_be_active() {
        for number in 0..=20 {
            let mut record = way.clone();
            assert!(record.read_register(number).is_ok(), "reads are not declined while active");
            assert_eq!(record, way, "its scalers are 0 as its latches are");
        }
    }
}

#[test]
fn tick_1() {
    for words in [0, 4_096] {
        for (triggers, lines) in [(0, 0), (0x1000, 0x80)] {
            let mut record = spoiled();
            assert_eq!(record.tick(&vec![0; words], triggers, lines, 0), Err(1)); // [Declines.5a]
            assert_eq!(record, spoiled());
        }
    }
}

#[test]
fn tick_2() {
    for words in [0, 1, 4_095, 4_097] {
        for (triggers, lines) in [(0, line::INHIBIT), (0x1000, 0x80)] {
            let mut record = active();
            assert_eq!(record.tick(&vec![0; words], triggers, lines, 0), Err(2)); // [Declines.5b]
            assert_eq!(record, active());
        }
    }
}

#[test]
fn tick_5() {
    let memory = vec![class_1(5, 1); MEMORY_WORDS];
    for bit in 0..32 {
        let value = 1u32 << bit;
        let mut record = active();
        let answer = record.tick(&memory, value, 0, 0);
        assert_eq!(answer.is_ok(), bit < 12, "trigger bit {bit}"); // [Declines.5c]
        let mut record = active();
        let answer = record.tick(&memory, 0, value, 0);
        assert_eq!(answer.is_ok(), bit < 7, "line {bit}");
    }
    for (triggers, lines) in [(0x1000, line::INHIBIT), (0xFFFF_F001, 0), (0, 0x80 | line::INHIBIT), (1, u32::MAX)] {
        let mut record = active();
        assert_eq!(record.tick(&memory, triggers, lines, 0), Err(5));
        assert_eq!(record, active(), "not even status 16"); // [Declines.1b]
    }
    assert!(active().tick(&memory, 0xFFF, 0x7F, u32::MAX).is_ok());
}

#[test]
fn a_tick_is_never_declined_for_being_active() {
    let memory = vec![0; MEMORY_WORDS];
    for mut record in ways_to_be_active() {
        assert!(record.tick(&memory, 0, 0, 0).is_ok()); // [Lab.7]
    }
}

#[test]
fn fresh_is_all_zero_and_idle() {
    let mut record = Supervisor::fresh();
    assert!(!record.is_spoiled() && !record.is_active()); // [Declines.6] [Registers.4]
    for number in 0..=19 {
        assert_eq!(record.read_register(number), Ok(0));
    }
}
