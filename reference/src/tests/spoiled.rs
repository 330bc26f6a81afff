//! Each clause of the spoiled rule alone. [Spoiled.1a]–[Spoiled.1k] [Blind.3] [Bytes.9]

use super::*;

/// Changes a fresh record; `expected` says whether that spoils it, and every call must agree.
#[track_caller]
fn expect(expected: bool, change: impl Fn(&mut Supervisor)) {
    let mut changed = Supervisor::fresh();
    change(&mut changed);
    assert_eq!(changed.is_spoiled(), expected);
    let mut memory = vec![0; MEMORY_WORDS];

    let mut record = changed.clone();
    let numbers = [
        record.write_register(Supervisor::ASSIGN, 0).err(),
        record.read_register(Supervisor::CSR).err(),
        record.write_memory(&mut memory, 0, 1).err(),
        record.read_memory(&memory, 0).err(),
        record.tick(&memory, 0, 0, 0).err(),
    ];
    if expected {
        assert_eq!(numbers, [Some(1); 5]);
        assert_eq!(record, changed, "a spoiled record is left as it is");
    } else {
        assert!(!numbers.contains(&Some(1)));
        assert!(!record.is_spoiled());
    }
}

#[track_caller]
fn spoils(change: impl Fn(&mut Supervisor)) {
    expect(true, change);
}

#[track_caller]
fn leaves(change: impl Fn(&mut Supervisor)) {
    expect(false, change);
}

#[test]
fn csr_bits() {
    for bit in 0..32 {
        let stored = bit <= 13 || (16..=20).contains(&bit); // [Spoiled.1a] [Test.10]
        expect(!stored, |r| r.csr = 1 << bit);
    }
    leaves(|r| r.csr = csr::STORED);
}

#[test]
fn control_bits() {
    for bit in 0..32 {
        expect(!(bit <= 12 || bit == 15), |r| r.control = 1 << bit); // [Spoiled.1a] [Control.1]
    }
}

#[test]
fn factors() {
    for input in 0..8 {
        let width = if input < 4 { 20 } else { 14 }; // [Widths.1]
        for bit in 0..32 {
            expect(bit >= width, |r| r.factors[input] = 1 << bit);
        }
        leaves(|r| r.factors[input] = (1 << width) - 1);
    }
}

#[test]
fn interval_and_timers() {
    for bit in 0..32 {
        let value = 1 << bit;
        expect(bit >= 16, |r| r.sync_interval = value); // [Registers.1]
        expect(bit >= 16, |r| r.t1 = Count40(value)); // [Widths.2]
        expect(bit >= 16, |r| r.t2 = Count40(value));
        expect(bit >= 16, |r| r.t3 = Count40(value));
        expect(bit >= 16, |r| r.t4 = Count40(value));
        expect(bit >= 8, |r| r.t5 = Count20(value));
    }
}

#[test]
fn assign_codes() {
    for code in 0..=0x200 {
        expect(!(code <= 0x3F || (0x50..=0x5F).contains(&code)), |r| r.assign = code);
        // [Assign.1]
    }
    spoils(|r| r.assign = u32::MAX);
}

#[test]
fn registers_that_take_any_value() {
    leaves(|r| r.roc_enable = u32::MAX);
    leaves(|r| r.scalers = [u32::MAX; 2]);
    leaves(|r| r.latches = [u32::MAX; 2]); // [Bytes.5a]
}

#[test]
fn stored_code() {
    for code in 0..=255 {
        expect(code > 0xF, |r| r.code = code); // [Spoiled.1b]
    }
}

#[test]
fn wait_2_class() {
    for class in 0..=255 {
        expect(class != 2 && class != 3, |r| {
            r.main = MainState::Wait2; // [Spoiled.1c]
            r.class = class;
        });
    }
    for main in [MainState::Idle, MainState::Delay, MainState::Wait3, MainState::Front, MainState::Clear] {
        for class in 0..=3 {
            leaves(|r| {
                r.main = main;
                r.class = class;
            });
        }
    }
}

#[test]
fn strobe_without_a_word() {
    for b in 0..4 {
        spoils(|r| r.branches[b].state = BranchState::Strobe); // [Spoiled.1d]
        leaves(|r| r.branches[b].state = BranchState::Drop);
        leaves(|r| {
            r.branches[b].state = BranchState::Strobe;
            r.branches[b].used = 1;
        });
    }
}

#[test]
fn counter_width() {
    for input in 0..8 {
        let width = if input < 4 { 20 } else { 14 }; // [Bytes.9] [Widths.1]
        for bit in 0..32 {
            expect(bit >= width, |r| r.counters[input] = 1 << bit);
        }
        // Above its factor, at it, and below: only the width counts.
        for (counter, factor) in [(7, 6), (1, 0), (5, 6), (6, 6), (0, 6), ((1 << width) - 1, 0)] {
            leaves(|r| (r.counters[input], r.factors[input]) = (counter, factor));
        }
        spoils(|r| (r.counters[input], r.factors[input]) = (1 << width, (1 << width) - 1));
        spoils(|r| r.counters[input] = u32::MAX);
    }
}

#[test]
fn word_over_3f() {
    for b in 0..4 {
        for place in 0..7 {
            for word in [0, 0x3F, 0x40, 0x7F, 0x80, 0xFF] {
                expect(word > 0x3F, |r| {
                    r.branches[b].used = place as u8 + 1; // [Spoiled.1f]
                    set_word(&mut r.branches[b], place, word);
                });
            }
        }
    }
}

#[test]
fn used_places() {
    let full_at = |main| matches!(main, MainState::Space | MainState::SyncHold);
    let states = [
        MainState::Idle,
        MainState::Delay,
        MainState::Wait2,
        MainState::Wait3,
        MainState::Front,
        MainState::Space,
        MainState::SyncHold,
        MainState::Clear,
    ];
    for b in 0..4 {
        for main in states {
            for used in 0..=255 {
                let most = if full_at(main) { 8 } else { 7 };
                expect(used > most, |r| {
                    r.main = main; // [Spoiled.1f]
                    r.class = 2;
                    r.branches[b].used = used;
                });
            }
        }
        for used in 0..=255 {
            expect(used > 8, |r| {
                r.user_sync_waiting = true;
                r.branches[b].used = used;
            });
        }
    }
}

#[test]
fn unused_place() {
    for b in 0..4 {
        for used in 0..=8 {
            for place in 0..8 {
                expect(place >= usize::from(used), |r| {
                    r.main = MainState::Space;
                    r.branches[b].used = used; // [Spoiled.1g]
                    set_word(&mut r.branches[b], place, 1);
                });
            }
        }
    }
}

#[test]
fn sync_count() {
    for (count, expected) in [(65_534, false), (65_535, true), (65_536, true), (u32::MAX, true)] {
        expect(expected, |r| r.sync_count = count); // [Spoiled.1h]
    }
}

#[test]
fn age() {
    for (age, expected) in [(131_070, false), (131_071, true), (u32::MAX, true)] {
        expect(expected, |r| r.age = age); // [Spoiled.1i]
    }
}

#[test]
fn clear_count() {
    for (count, expected) in [(255, false), (256, true), (u32::MAX, true)] {
        expect(expected, |r| r.clear_count = count); // [Spoiled.1j]
    }
}

#[test]
fn blind_count() {
    for (count, expected) in [(0, false), (1, false), (2, false), (3, true), (255, true), (256, true), (u32::MAX, true)]
    {
        expect(expected, |r| r.blind = count); // [Blind.3]
    }
    // Only the bound spoils, not a count in a cycle. [Open: T8]
    leaves(|r| {
        r.main = MainState::Delay;
        r.blind = 2;
    });
}

#[test]
fn a_cycle_while_a_user_sync_waits() {
    leaves(|r| r.user_sync_waiting = true);
    for main in [
        MainState::Delay,
        MainState::Wait2,
        MainState::Wait3,
        MainState::Front,
        MainState::Space,
        MainState::SyncHold,
        MainState::Clear,
    ] {
        spoils(|r| {
            r.main = main; // [Spoiled.1k]
            r.class = 2;
            r.user_sync_waiting = true;
        });
    }
}

#[test]
fn what_no_clause_names_does_not_spoil() {
    // Idle with a stale late mark, raised lines, c, age, class and pattern. [Open: A5]
    leaves(|r| {
        r.late = true;
        r.raised = u8::MAX;
        r.clear_count = 255;
        r.age = 131_070;
        r.class = 255;
        r.code = 15;
        r.accept_pattern = 255;
        r.sync_count = 65_534;
    });
    // Nor does what is kept of the latest tick, odd lines included. [State.3]
    leaves(|r| (r.kept_lines, r.latched, r.kept_acknowledges) = (u32::MAX, true, u32::MAX));
    leaves(|r| r.kept_lines = 0x80);
}
