//! The account, and its faulty copy, as the comparison keeps them.

use crate::faulty_account;
use reference::account::{self, INPUTS};
use reference::machine::{Answer, Supervisor};

/// What the comparison tells an account and asks of it.
pub trait Account {
    fn new() -> Self;
    fn write_bytes(&mut self, number: u32, run: (u32, u32), value: u32, answer: Result<(), u8>);
    fn tick(&mut self, triggers: u32, lines: u32, answer: &Result<Answer, u8>);
    fn check(&self, record: &Supervisor) -> Result<(), String>;
    /// Which pass counts are owed.
    fn owed(&self) -> [bool; INPUTS];
    fn factors(&self) -> [u32; INPUTS];
    /// Whether a pass count is n div (F + 1).
    fn is_settled(&self, input: usize) -> bool;
}

macro_rules! account {
    ($account:ident) => {
        impl Account for $account::Account {
            fn new() -> Self {
                $account::Account::new()
            }

            fn write_bytes(&mut self, number: u32, run: (u32, u32), value: u32, answer: Result<(), u8>) {
                self.write_bytes(number, run.0, run.1, value, answer);
            }

            fn tick(&mut self, triggers: u32, lines: u32, answer: &Result<Answer, u8>) {
                self.tick(triggers, lines, answer);
            }

            fn check(&self, record: &Supervisor) -> Result<(), String> {
                self.check(record)
            }

            fn owed(&self) -> [bool; INPUTS] {
                self.owed
            }

            fn factors(&self) -> [u32; INPUTS] {
                self.factors
            }

            fn is_settled(&self, input: usize) -> bool {
                self.inputs[input].is_settled(self.factors[input])
            }
        }
    };
}

account!(account);
account!(faulty_account);
