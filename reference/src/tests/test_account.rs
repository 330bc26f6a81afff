//! The account follows both modes, the single step and the written pulses. [Test.8b] [Test.9]

use super::account::{kept, QUIET};
use super::*;
use crate::account::Account;

/// All inputs enabled, and this write to the CSR.
fn told(csr: u32) -> Account {
    let mut account = kept(ALL_ENABLED, 0);
    account.write_register(Supervisor::CSR, csr, Ok(()));
    account
}

/// How many pulses of all inputs a tick with every trigger adds.
fn counted(account: &mut Account) -> u64 {
    let sum = |account: &Account| account.inputs.iter().map(|input| input.counted).sum::<u64>();
    let before = sum(account);
    account.tick(0xFFF, 0, &Ok(QUIET));
    sum(account) - before
}

#[test]
fn held_pulses_count() {
    let mut account = told(csr::HOLD | csr::GO);
    account.tick(5, 0, &Ok(Answer { stopped: 5, ..QUIET })); // [Test.7a]
    assert_eq!((account.inputs[2].counted, account.inputs[2].stopped, account.inputs[2].n), (1, 1, 0));
    assert_eq!(account.check(&Supervisor::fresh()), Ok(()));
}

#[test]
fn in_test_mode_only_written_pulses_count() {
    let mut account = told(csr::TEST_MODE);
    assert_eq!(counted(&mut account), 0);
    account.write_register(Supervisor::TEST, 0x7F3C, Ok(()));
    assert_eq!(counted(&mut account), 0);
    account.write_register(Supervisor::TEST, test::LEVEL_1_PASS, Ok(()));
    account.write_register(Supervisor::TEST, test::LEVEL_1_PASS, Ok(()));
    assert_eq!(counted(&mut account), 12); // once [Test.6]
    assert_eq!(counted(&mut account), 0);
}

#[test]
fn written_pulses_count_with_the_strobe_high() {
    let mut account = told(csr::TEST_MODE);
    account.write_register(Supervisor::CONTROL, 0x0005, Ok(()));
    account.write_register(Supervisor::TEST, test::LEVEL_1_PASS, Ok(()));
    assert_eq!(counted(&mut account), 1); // [Test.3]
}

#[test]
fn written_pulses_wait_for_a_tick_that_runs() {
    let mut account = told(csr::MODES);
    account.write_register(Supervisor::TEST, test::LEVEL_1_PASS, Ok(()));
    assert_eq!(counted(&mut account), 0);
    account.tick(0, 0, &Err(2));
    account.write_register(Supervisor::TEST, test::SINGLE_STEP, Ok(()));
    account.tick(0, 0, &Err(5));
    assert_eq!(counted(&mut account), 12); // [Test.8a]
    assert_eq!(counted(&mut account), 0);
    // Test mode is asked in the tick.
    account.write_register(Supervisor::TEST, test::LEVEL_1_PASS, Ok(()));
    account.write_register(Supervisor::CSR, csr::TEST_MODE << 16, Ok(()));
    assert_eq!(counted(&mut account), 12, "held: those from outside");
    assert!(account.pulse);
    account.write_register(Supervisor::CSR, csr::HOLD << 16, Ok(()));
    assert_eq!(counted(&mut account), 12);
    assert!(!account.pulse, "dropped");
}

#[test]
fn a_step_needs_hold() {
    let mut account = told(0);
    account.write_register(Supervisor::TEST, test::SINGLE_STEP, Ok(()));
    assert!(!account.step);
    account.write_register(Supervisor::CSR, csr::HOLD, Ok(()));
    account.write_register(Supervisor::TEST, test::SINGLE_STEP, Ok(()));
    assert!(account.step);
    account.write_register(Supervisor::CSR, csr::HOLD << 16, Ok(()));
    assert!(account.step, "it survives");
    counted(&mut account);
    assert!(!account.step, "used by whichever tick runs");
}

#[test]
fn byte_runs_and_declined_writes() {
    let mut account = Account::new();
    account.write_bytes(Supervisor::CSR, 3, 1, csr::MODES, Ok(()));
    assert_eq!((account.hold, account.test_mode), (false, false), "outside the run");
    account.write_register(Supervisor::CSR, csr::MODES, Err(1));
    assert_eq!((account.hold, account.test_mode), (false, false));
    account.write_bytes(Supervisor::CSR, 2, 1, csr::MODES, Ok(()));
    assert_eq!((account.hold, account.test_mode), (true, true));
    account.write_register(Supervisor::TEST, 0xFF, Err(5));
    account.write_bytes(Supervisor::TEST, 2, 1, 0xFF, Ok(()));
    assert_eq!((account.step, account.pulse), (false, false));
    account.write_bytes(Supervisor::TEST, 3, 1, 0x81, Ok(()));
    assert_eq!((account.step, account.pulse), (true, true));
    account.write_bytes(Supervisor::CSR, 0, 1, csr::HOLD << 16, Ok(()));
    assert_eq!((account.hold, account.test_mode), (false, true));
}

#[test]
fn reset_keeps_the_modes_and_drops_what_waits() {
    let mut account = told(csr::MODES);
    account.write_register(Supervisor::TEST, 0x81, Ok(()));
    account.write_register(Supervisor::CSR, csr::RESET | csr::HOLD << 16, Ok(())); // [Test.8b]
    let expected = Account { control: ALL_ENABLED, test_mode: true, ..Account::new() };
    assert_eq!(account, expected);
    account.write_register(Supervisor::CSR, csr::RESET | csr::MODES | csr::TEST_MODE << 16, Ok(()));
    assert_eq!((account.hold, account.test_mode), (true, false));
    account.write_register(Supervisor::TEST, 0x81, Ok(()));
    account.write_register(Supervisor::CSR, csr::INITIALIZE | csr::MODES, Ok(()));
    assert_eq!(account, Account::new()); // [Account.8]
}
