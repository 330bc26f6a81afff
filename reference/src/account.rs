//! The account of demand 3, kept from calls and answers alone. [Account.1]–[Account.18] [Bytes.10a] [Bytes.10b]
//! [Test.9]
//!
//! Only register writes and ticks are told to it; reads, memory writes and the generator leave it alone. [Account.5]

pub use crate::machine::INPUTS;
use crate::machine::{csr, test, Answer, MainState, Outcome, Supervisor, BRANCHES, PLACES};

/// What is added up for one input. [Account.11] [Account.12]
#[derive(Clone, Copy, Debug, Default, PartialEq, Eq)]
pub struct Input {
    pub counted: u64,
    pub stopped: u64,
    pub scaled: u64,
    pub lost: u64,
    pub rejected: u64,
    pub accepted: u64,
    /// Counted pulses not stopped since the counter's last load. [Bytes.10b]
    pub n: u64,
    /// Those of them that passed.
    pub p: u64,
}

impl Input {
    /// The pass count under this factor. [Account.17]
    pub fn is_settled(&self, factor: u32) -> bool {
        self.p == self.n / (u64::from(factor) + 1)
    }
}

/// The account. 64 bits outlast any list of calls: at one tick in 20 ns they fill up after 11,000 years. [Account.3]
#[derive(Clone, Debug, PartialEq, Eq)]
pub struct Account {
    pub control: u32,
    /// Merged values; inputs 9–12 keep factor 0. [Bytes.10b]
    pub factors: [u32; INPUTS],
    /// Whether p = n div (F + 1) is owed: since the last load no write without BYTE(3) has changed F. Inputs 9–12
    /// always owe it. [Bytes.10a]
    pub owed: [bool; INPUTS],
    /// Both modes, as the writes carried out leave them. [Test.9]
    pub hold: bool,
    pub test_mode: bool,
    /// A single step written under hold waits. [Test.8a] [Test.9]
    pub step: bool,
    /// A pulse on every enabled input was written since the latest tick that ran. [Test.3] [Test.9]
    pub pulse: bool,
    pub inputs: [Input; INPUTS],
    pub accepted_events: u64,
    pub cleared_events: u64,
    pub loaded_events: u64,
    pub tags: u64,
    pub undecided: bool,
    pub words_loaded: Vec<u8>,
    pub words_finished: [Vec<u8>; BRANCHES],
}

impl Account {
    /// [Account.4] [Bytes.10a]
    pub fn new() -> Self {
        Account {
            control: 0,
            factors: [0; INPUTS],
            owed: [true; INPUTS],
            hold: false,
            test_mode: false,
            step: false,
            pulse: false,
            inputs: [Input::default(); INPUTS],
            accepted_events: 0,
            cleared_events: 0,
            loaded_events: 0,
            tags: 0,
            undecided: false,
            words_loaded: Vec::new(),
            words_finished: Default::default(),
        }
    }

    /// A register write and its answer: the run of all four bytes.
    pub fn write_register(&mut self, number: u32, value: u32, answer: Result<(), u8>) {
        self.write_bytes(number, 0, 4, value, answer);
    }

    /// A register write by bytes and its answer. RESET and INITIALIZE load too. [Account.5]–[Account.9] [Bytes.10a]
    /// [Bytes.10b]
    pub fn write_bytes(&mut self, number: u32, first: u32, count: u32, value: u32, answer: Result<(), u8>) {
        if answer.is_err() {
            return;
        }
        let run = bytes_of(first, count);
        let merged = |kept: u32| value & run | kept & !run;
        match number {
            Supervisor::CSR => self.write_csr(merged(0)),
            Supervisor::TEST => self.write_test(merged(0)),
            Supervisor::CONTROL => self.control = merged(self.control),
            Supervisor::FACTOR_1..=Supervisor::FACTOR_8 => {
                let input = (number - Supervisor::FACTOR_1) as usize;
                self.write_factor(input, merged(self.factors[input]), run & 0xFF != 0);
            }
            _ => {}
        }
    }

    /// INITIALIZE; else both modes follow the write, and RESET keeps them. [Account.8] [Account.9] [Test.8b] [Test.9]
    fn write_csr(&mut self, value: u32) {
        if value & csr::INITIALIZE != 0 {
            *self = Self::new();
            return;
        }
        let (set, clear) = (value, value >> 16);
        self.hold = (self.hold || set & csr::HOLD != 0) && clear & csr::HOLD == 0;
        self.test_mode = (self.test_mode || set & csr::TEST_MODE != 0) && clear & csr::TEST_MODE == 0;
        if value & csr::RESET != 0 {
            let (hold, test_mode) = (self.hold, self.test_mode);
            *self = Account { control: self.control, factors: self.factors, hold, test_mode, ..Self::new() };
        }
    }

    /// What waits for the next tick that runs. [Test.6] [Test.8a] [Test.9]
    fn write_test(&mut self, value: u32) {
        self.step |= self.hold && value & test::SINGLE_STEP != 0;
        self.pulse |= value & test::LEVEL_1_PASS != 0;
    }

    /// The pulses that a tick brings, enabled or not, and whether the strobe is high. In test mode nothing from outside
    /// counts, and a written pulse counts in the tick that runs. [Test.2] [Test.3] [Test.7a] [Test.9]
    fn brought(&mut self, triggers: u32, lines: u32) -> (u32, bool) {
        let runs = !self.hold || self.step;
        let written = runs && self.pulse;
        if runs {
            (self.step, self.pulse) = (false, false);
        }
        if !self.test_mode {
            (triggers, lines & 1 != 0)
        } else if written {
            (u32::MAX, true)
        } else {
            (0, false)
        }
    }

    /// Only a load puts n and p to 0 and makes the pass count owed again. [Account.7] [Bytes.10a] [Bytes.10b]
    fn write_factor(&mut self, input: usize, factor: u32, loads: bool) {
        if loads {
            self.inputs[input].n = 0;
            self.inputs[input].p = 0;
            self.owed[input] = true;
        } else if factor != self.factors[input] {
            self.owed[input] = false;
        }
        self.factors[input] = factor;
    }

    /// A tick and its answer, held or not. [Account.10]–[Account.15] [Test.9]
    pub fn tick(&mut self, triggers: u32, lines: u32, answer: &Result<Answer, u8>) {
        let Ok(answer) = answer else { return };
        // The pulse rule, written out once more, so that the account does not lean on the machine. [Pulses.1]
        let (triggers, strobe) = self.brought(triggers, lines);
        let strobed = self.control & 1 == 0 || strobe;
        for (i, input) in self.inputs.iter_mut().enumerate() {
            let bit = |mask: u16| u64::from((mask >> i) & 1);
            let enabled = (self.control >> (i + 1)) & 1 != 0;
            let is_counted = u64::from(strobed && enabled && (triggers >> i) & 1 != 0);
            input.counted += is_counted;
            input.stopped += bit(answer.stopped);
            input.scaled += bit(answer.scaled);
            input.lost += bit(answer.lost);
            input.rejected += bit(answer.rejected);
            input.accepted += bit(answer.accepted);
            input.n += is_counted & !bit(answer.stopped);
            input.p += is_counted & !bit(answer.stopped) & !bit(answer.scaled);
        }
        if answer.accepted != 0 {
            self.accepted_events += 1;
            self.undecided = true;
        }
        self.add_outcome(answer.outcome);
        for (words, word) in self.words_finished.iter_mut().zip(answer.finished) {
            words.extend(word);
        }
    }

    /// [Account.14] [Account.15]
    fn add_outcome(&mut self, outcome: Outcome) {
        match outcome {
            Outcome::Nothing => {}
            Outcome::Cleared => {
                self.cleared_events += 1;
                self.undecided = false;
            }
            Outcome::Event(word) => {
                self.loaded_events += 1;
                self.undecided = false;
                self.words_loaded.push(word);
            }
            Outcome::Tag(word) => {
                self.tags += 1;
                self.undecided = false;
                self.words_loaded.push(word);
            }
        }
    }

    /// Every clause of demand 3, against the record after the list.
    pub fn check(&self, record: &Supervisor) -> Result<(), String> {
        for (b, (branch, finished)) in record.branches.iter().zip(&self.words_finished).enumerate() {
            let number = b + 1;
            if usize::from(branch.used) > PLACES {
                return Err(format!("branch {number} holds {} words", branch.used));
            }
            // [Account.15] [Account.16]
            let rest = self.words_loaded.strip_prefix(finished.as_slice());
            if rest != Some(branch.held().as_slice()) {
                return Err(format!(
                    "branch {number}: {} words finished, then {:02X?} held, are not the {} loaded",
                    finished.len(),
                    branch.held(),
                    self.words_loaded.len(),
                ));
            }
        }
        for (i, (input, factor)) in self.inputs.iter().zip(self.factors).enumerate() {
            let number = i + 1;
            // [Account.11]
            let shared_out = input.stopped + input.scaled + input.lost + input.rejected + input.accepted;
            if input.counted != shared_out {
                return Err(format!("input {number}: {} counted, {shared_out} in the masks", input.counted));
            }
            // [Account.17] [Bytes.10a]
            if self.owed[i] && !input.is_settled(factor) {
                return Err(format!("input {number}, factor {factor}: {} passed of {}", input.p, input.n));
            }
        }
        // [Account.13] [Account.14]
        if self.accepted_events != self.cleared_events + self.loaded_events + u64::from(self.undecided) {
            return Err(format!(
                "{} accepted, {} cleared, {} loaded, undecided: {}",
                self.accepted_events, self.cleared_events, self.loaded_events, self.undecided
            ));
        }
        // [Account.18]
        let deciding = matches!(record.main, MainState::Delay | MainState::Wait2 | MainState::Wait3 | MainState::Front);
        if self.undecided != deciding {
            return Err(format!("undecided: {}, main at {:?}", self.undecided, record.main));
        }
        Ok(())
    }
}

impl Default for Account {
    fn default() -> Self {
        Self::new()
    }
}

/// The bits of a run's bytes, byte by byte, so that the account does not lean on the machine here either. [Bytes.2]
fn bytes_of(first: u32, count: u32) -> u32 {
    let is_in = |&byte: &u32| byte >= first && byte - first < count;
    (0..4).filter(is_in).map(|byte| 0xFF00_0000 >> (8 * byte)).sum()
}
