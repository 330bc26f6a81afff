//! The account of demand 3: that it follows the calls, and that it tells a wrong answer. [Account.1]–[Account.18]

use super::*;
use crate::account::{Account, Input};

pub(super) const QUIET: Answer = Answer {
    stopped: 0,
    scaled: 0,
    lost: 0,
    rejected: 0,
    accepted: 0,
    lines: 0,
    outcome: Outcome::Nothing,
    finished: NONE,
    shown: NONE,
};

/// An account with control and factor 1 kept.
pub(super) fn kept(control: u32, factor: u32) -> Account {
    let mut account = Account::new();
    account.write_register(Supervisor::CONTROL, control, Ok(()));
    account.write_register(Supervisor::FACTOR_1, factor, Ok(()));
    account
}

#[test]
fn at_the_start() {
    let account = Account::new();
    assert_eq!(account.check(&Supervisor::fresh()), Ok(())); // [Account.4]
    assert_eq!((account.control, account.factors, account.undecided), (0, [0; 12], false));
    assert_eq!(account.owed, [true; 12]); // [Bytes.10a]
    assert_eq!(account, Account::default());
}

#[test]
fn declined_calls_leave_it() {
    let mut account = kept(0x1FFE, 2);
    let before = account.clone();
    account.write_register(Supervisor::CONTROL, 0, Err(4)); // [Account.5]
    account.write_register(Supervisor::CSR, csr::INITIALIZE | 1 << 30, Err(5));
    account.tick(0xFFF, 0, &Err(5));
    assert_eq!(account, before);
}

#[test]
fn other_writes_leave_it() {
    let mut account = kept(0x1FFE, 2);
    account.tick(1, 0, &Ok(Answer { scaled: 1, ..QUIET }));
    let before = account.clone();
    for number in 10..=19 {
        account.write_register(number, 1, Ok(())); // [Account.5]
    }
    account.write_register(Supervisor::CSR, 0x8FFF_0FFF, Ok(()));
    assert_eq!(account, before);
}

#[test]
fn a_factor_write_zeroes_n_and_p() {
    let mut account = kept(0x1FFE, 0);
    account.tick(3, 0, &Ok(Answer { rejected: 3, ..QUIET }));
    account.write_register(Supervisor::FACTOR_1, 0, Ok(())); // [Account.7]
    assert_eq!(account.inputs[0], Input { counted: 1, rejected: 1, ..Input::default() });
    assert_eq!(account.inputs[1], Input { counted: 1, rejected: 1, n: 1, p: 1, ..Input::default() });
}

#[test]
fn initialize_and_reset() {
    let mut account = kept(0x1FFE, 2);
    account.tick(1, 0, &Ok(Answer { scaled: 1, outcome: Outcome::Tag(0x10), finished: [Some(1); 4], ..QUIET }));
    account.tick(2, 0, &Ok(Answer { accepted: 2, ..QUIET }));
    let mut reset = account.clone();
    reset.write_register(Supervisor::CSR, csr::RESET, Ok(()));
    assert_eq!(reset, kept(0x1FFE, 2)); // [Account.9]
    for value in [csr::INITIALIZE, csr::INITIALIZE | csr::RESET] {
        let mut fresh = account.clone();
        fresh.write_register(Supervisor::CSR, value, Ok(()));
        assert_eq!(fresh, Account::new()); // [Account.8]
    }
}

#[test]
fn counted_by_the_kept_control() {
    let mut account = kept(0x0007, 0); // strobe mode, inputs 1 and 2
    account.tick(0xFFF, 0, &Ok(QUIET));
    assert_eq!(account.inputs, [Input::default(); 12]); // [Account.10]
    account.tick(0xFFF, line::STROBE, &Ok(Answer { stopped: 3, ..QUIET }));
    assert_eq!(account.inputs[1], Input { counted: 1, stopped: 1, ..Input::default() });
    assert_eq!(account.inputs[2], Input::default());
}

#[test]
fn the_five_masks_are_added_up() {
    let mut account = kept(0x1FFE, 0);
    let answer = Answer { stopped: 0x001, scaled: 0x002, lost: 0x004, rejected: 0x008, accepted: 0x010, ..QUIET };
    account.tick(0x01F, 0, &Ok(answer));
    let one = Input { counted: 1, ..Input::default() };
    assert_eq!(account.inputs[0], Input { stopped: 1, ..one }); // [Account.11] [Account.12]
    assert_eq!(account.inputs[1], Input { scaled: 1, n: 1, ..one });
    assert_eq!(account.inputs[2], Input { lost: 1, n: 1, p: 1, ..one });
    assert_eq!(account.inputs[3], Input { rejected: 1, n: 1, p: 1, ..one });
    assert_eq!(account.inputs[4], Input { accepted: 1, n: 1, p: 1, ..one });
    assert_eq!(account.inputs[5], Input::default());
}

#[test]
fn undecided_follows_accept_and_outcome() {
    for outcome in [Outcome::Cleared, Outcome::Event(5), Outcome::Tag(0x10)] {
        let mut account = kept(0x1FFE, 0);
        account.tick(1, 0, &Ok(Answer { accepted: 1, ..QUIET }));
        assert!(account.undecided); // [Account.13]
        account.tick(0, 0, &Ok(QUIET));
        assert!(account.undecided);
        account.tick(0, 0, &Ok(Answer { outcome, ..QUIET }));
        assert!(!account.undecided); // [Account.14]
        let kinds = (account.cleared_events, account.loaded_events, account.tags);
        let expected = match outcome {
            Outcome::Cleared => (1, 0, 0),
            Outcome::Event(_) => (0, 1, 0),
            _ => (0, 0, 1),
        };
        assert_eq!(kinds, expected);
        assert_eq!(account.words_loaded, outcome.word().into_iter().collect::<Vec<u8>>());
        // [Account.15]
    }
}

/// A unit and its account after 50 ticks with events finished, held and undecided.
fn after_some_ticks() -> (Unit, Account) {
    let mut unit = Unit::fresh(class_1(5, 1));
    let mut account = kept(0x1FFE, 2);
    unit.write(Supervisor::CONTROL, 0x1FFE);
    unit.write(Supervisor::FACTOR_1, 2);
    unit.write(Supervisor::ROC_ENABLE, 0x0101_0101);
    unit.write(Supervisor::CSR, csr::GO);
    let mut tick = |triggers, acknowledges| {
        let answer = unit.record.tick(&unit.memory, triggers, 0, acknowledges);
        account.tick(triggers, 0, &answer);
        assert_eq!(account.check(&unit.record), Ok(()));
    };
    for number in 0..50u32 {
        tick(0x003, if number % 7 == 6 { u32::MAX } else { 0 });
    }
    assert!(account.undecided && account.words_finished[0].len() > 2 && unit.used()[0] > 2);
    (unit, account)
}

#[test]
fn check_tells_each_wrong_clause() {
    let (unit, account) = after_some_ticks();
    let wrong = |change: &dyn Fn(&mut Account)| {
        let mut account = account.clone();
        change(&mut account);
        account.check(&unit.record).unwrap_err()
    };
    assert!(wrong(&|a| a.words_loaded.push(5)).contains("branch 1"));
    assert!(wrong(&|a| a.words_finished[2].clear()).contains("branch 3"));
    assert!(wrong(&|a| a.words_finished[3][0] = 6).contains("branch 4"));
    assert!(wrong(&|a| a.words_finished[0].extend([5; 99])).contains("branch 1"));
    assert!(wrong(&|a| a.inputs[0].counted += 1).contains("input 1"));
    assert!(wrong(&|a| a.inputs[11].lost += 1).contains("input 12"));
    assert!(wrong(&|a| a.inputs[0].p += 1).contains("input 1, factor 2"));
    assert!(wrong(&|a| a.inputs[1].n += 1).contains("input 2, factor 0"));
    assert!(wrong(&|a| a.accepted_events += 1).contains("accepted"));
    assert!(wrong(&|a| a.cleared_events += 1).contains("accepted"));
    assert!(wrong(&|a| a.undecided = false).contains("accepted"));
    let both = |a: &mut Account| {
        a.undecided = false;
        a.loaded_events += 1;
    };
    assert!(wrong(&both).contains("main at"));
}

#[test]
fn check_tells_a_wrong_record() {
    let (unit, account) = after_some_ticks();
    let wrong = |change: &dyn Fn(&mut Supervisor)| {
        let mut record = unit.record.clone();
        change(&mut record);
        account.check(&record).unwrap_err()
    };
    assert!(wrong(&|r| r.main = MainState::Idle).contains("main at Idle"));
    assert!(wrong(&|r| set_word(&mut r.branches[1], 0, 6)).contains("branch 2"));
    assert!(wrong(&|r| r.branches[2] = Branch::fresh()).contains("branch 3"));
    assert!(wrong(&|r| r.branches[3].used = 9).contains("holds 9 words")); // at most eight held
}

#[test]
fn undecided_exactly_at_delay_waits_and_front() {
    for (main, deciding) in [
        (MainState::Idle, false),
        (MainState::Delay, true),
        (MainState::Wait2, true),
        (MainState::Wait3, true),
        (MainState::Front, true),
        (MainState::Space, false),
        (MainState::SyncHold, false),
        (MainState::Clear, false),
    ] {
        for undecided in [false, true] {
            let mut account = Account::new();
            if undecided {
                account.tick(0, 0, &Ok(Answer { accepted: 1, ..QUIET }));
                account.inputs[0].accepted = 0;
            }
            let record = Supervisor { main, ..Supervisor::fresh() };
            assert_eq!(account.check(&record).is_ok(), undecided == deciding); // [Account.18]
        }
    }
}
