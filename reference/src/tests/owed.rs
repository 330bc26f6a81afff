//! The account of byte-wise writes: merged values, and from when to when the pass count is owed. [Bytes.10a]
//! [Bytes.10b]

use super::account::{kept, QUIET};
use super::bytes::RUNS;
use super::*;
use crate::account::Account;

const FACTOR: u32 = Supervisor::FACTOR_1;

/// An account with factor 0105h for input 1 and three pulses on inputs 1 and 2: scaled away and rejected.
fn after_pulses() -> Account {
    let mut account = kept(ALL_ENABLED, 0x0105);
    for _ in 0..3 {
        account.tick(3, 0, &Ok(Answer { scaled: 1, rejected: 2, ..QUIET }));
    }
    assert_eq!((account.inputs[0].n, account.inputs[0].p, account.owed), (3, 0, [true; 12]));
    account
}

/// A write carried out.
fn write(account: &mut Account, number: u32, (first, count): (u32, u32), value: u32) {
    account.write_bytes(number, first, count, value, Ok(()));
}

#[test]
fn merged_values_are_kept() {
    for (first, count, bits) in RUNS {
        for junk in [0, !bits] {
            let mut account = kept(0x8AAA, 0xA_5A5A);
            write(&mut account, Supervisor::CONTROL, (first, count), 0x1555 & bits | junk);
            write(&mut account, FACTOR, (first, count), 0x5_A5A5 & bits | junk);
            assert_eq!(account.control, 0x1555 & bits | 0x8AAA & !bits); // [Bytes.10b]
            assert_eq!(account.factors[0], 0x5_A5A5 & bits | 0xA_5A5A & !bits);
        }
    }
}

#[test]
fn only_a_load_puts_n_and_p_to_0() {
    for (first, count, bits) in RUNS {
        let mut account = after_pulses();
        let before = account.clone();
        write(&mut account, FACTOR, (first, count), 0x0105);
        assert_eq!(account.owed, [true; 12], "the factor is as it was"); // [Bytes.10a]
        if bits & 0xFF == 0 {
            assert_eq!(account, before); // [Bytes.10b]
        } else {
            assert_eq!((account.inputs[0].n, account.inputs[0].counted), (0, 3)); // [Account.7]
            assert_eq!(account.inputs[1], before.inputs[1]);
        }
    }
}

#[test]
fn a_change_without_byte_3_ends_what_is_owed() {
    for (first, count, bits) in RUNS {
        let mut account = after_pulses();
        write(&mut account, FACTOR, (first, count), 0x0001_0203);
        let changes = bits & 0x0001_FF00 != 0;
        let mut owed = [true; 12];
        owed[0] = bits & 0xFF != 0 || !changes; // [Bytes.10a]
        assert_eq!(account.owed, owed, "{bits:08X}");
        assert_eq!(account.inputs[0].n, if bits & 0xFF != 0 { 0 } else { 3 }); // [Bytes.10b]
    }
}

#[test]
fn changed_back_is_not_owed_again() {
    let mut account = after_pulses();
    write(&mut account, FACTOR, (2, 1), 0x0200);
    assert!(!account.owed[0]);
    write(&mut account, FACTOR, (2, 1), 0x0100);
    assert_eq!((account.factors[0], account.owed[0]), (0x0105, false)); // [Bytes.10a]
    write(&mut account, FACTOR, (0, 3), 0x0100);
    assert!(!account.owed[0], "nor where a write leaves it as it is");
    assert_eq!(account.inputs[0].n, 3);
}

#[test]
fn each_load_makes_it_owed_again() {
    let changed = || {
        let mut account = after_pulses();
        write(&mut account, FACTOR, (2, 1), 0);
        write(&mut account, FACTOR + 1, (2, 1), 0x0100);
        assert_eq!((account.owed[0], account.owed[1], account.owed[2]), (false, false, true));
        account
    };
    for (run, value, factor) in [((3, 1), 0x07, 7), ((2, 2), 0x0105, 0x0105), ((0, 4), 9, 9)] {
        let mut account = changed();
        write(&mut account, FACTOR, run, value); // [Bytes.10a]
        assert_eq!((account.factors[0], account.owed[0], account.owed[1]), (factor, true, false));
        assert_eq!((account.inputs[0].n, account.inputs[0].p), (0, 0)); // [Bytes.10b]
        assert_eq!((account.inputs[1].n, account.inputs[1].p), (3, 3));
    }
    for run in [(2, 1), (1, 2), (0, 3), (2, 2), (0, 4)] {
        let mut account = changed();
        write(&mut account, Supervisor::CSR, run, csr::RESET); // [Account.9] [Bytes.4b]
        let mut expected = kept(ALL_ENABLED, 5);
        expected.factors[1] = 0x0100;
        assert_eq!(account, expected);
        let mut account = changed();
        write(&mut account, Supervisor::CSR, run, csr::INITIALIZE); // [Account.8]
        assert_eq!(account, Account::new());
    }
}

#[test]
fn csr_bits_outside_the_run_are_not_written() {
    for (first, count, bits) in RUNS {
        for (bit, wipes) in [(csr::RESET, bits & csr::RESET != 0), (csr::INITIALIZE, bits & csr::INITIALIZE != 0)] {
            let mut account = after_pulses();
            write(&mut account, Supervisor::CSR, (first, count), bit); // [Bytes.3b]
            assert_eq!(account.inputs[0].counted, if wipes { 0 } else { 3 });
        }
    }
}

#[test]
fn declined_writes_and_other_registers_leave_it() {
    let mut account = after_pulses();
    let before = account.clone();
    for (first, count, _) in RUNS {
        for decline in [1, 3, 4, 5] {
            account.write_bytes(FACTOR, first, count, 0x0203, Err(decline)); // [Account.5]
            account.write_bytes(Supervisor::CSR, first, count, csr::RESET, Err(decline));
        }
        for number in 10..=19 {
            write(&mut account, number, (first, count), 1);
        }
    }
    for (first, count) in super::bytes::NO_RUNS {
        account.write_bytes(FACTOR, first, count, u32::MAX, Err(7)); // [Bytes.11]
    }
    assert_eq!(account, before);
}

#[test]
fn the_pass_count_is_checked_where_it_is_owed() {
    let record = Supervisor::fresh();
    let mut account = kept(ALL_ENABLED, 0);
    account.tick(3, 0, &Ok(Answer { rejected: 3, ..QUIET }));
    assert_eq!(account.check(&record), Ok(()));
    account.inputs[0].p = 0;
    assert!(account.check(&record).unwrap_err().contains("input 1, factor 0"));
    account.owed[0] = false; // [Bytes.10a]
    assert_eq!(account.check(&record), Ok(()));
    account.inputs[1].p = 0;
    assert!(account.check(&record).unwrap_err().contains("input 2, factor 0"));
}

#[test]
fn what_is_not_owed_may_differ() {
    // Prescales open: the counter runs on down from 0105h over a factor of 5, so no sixth pulse passes.
    let mut unit = Unit::fresh(0);
    let mut account = Account::new();
    let written = |unit: &mut Unit, number: u32, run: (u32, u32), value: u32, account: &mut Account| {
        unit.write_run(number, run, value);
        account.write_bytes(number, run.0, run.1, value, Ok(()));
    };
    written(&mut unit, Supervisor::CONTROL, (0, 4), control::OPEN_PRESCALES | ALL_ENABLED, &mut account);
    written(&mut unit, FACTOR, (0, 4), 0x0105, &mut account);
    let pulses = |unit: &mut Unit, account: &mut Account, count: u32| {
        for _ in 0..count {
            let answer = unit.record.tick(&unit.memory, 1, 0, 0);
            account.tick(1, 0, &answer);
            assert_eq!(account.check(&unit.record), Ok(()));
        }
    };
    pulses(&mut unit, &mut account, 6);
    written(&mut unit, FACTOR, (2, 1), 0, &mut account);
    pulses(&mut unit, &mut account, 6);
    assert_eq!((account.inputs[0].n, account.inputs[0].p, account.owed[0]), (12, 0, false)); // [Bytes.10a]
    written(&mut unit, FACTOR, (3, 1), 5, &mut account);
    pulses(&mut unit, &mut account, 13);
    assert_eq!((account.inputs[0].n, account.inputs[0].p, account.owed[0]), (13, 2, true));
}
