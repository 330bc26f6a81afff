//! Test pulses and the held clock: what TEST writes, what is in force in a tick that runs, and the answer of a tick
//! that hold keeps from running. [Test.1]–[Test.8b]

use super::{control, csr, line, test, Answer, Branch, Outcome, Supervisor, BRANCHES, TRIGGER_BITS};

/// What comes to a tick, from outside or written. [Tick.1] [Test.2]
#[derive(Clone, Copy)]
pub(super) struct Input {
    pub triggers: u32,
    pub lines: u32,
    pub acknowledges: u32,
}

/// Each TEST bit that stands for a line, and that line. Bit 0 brings the strobe along. [Test.2] [Test.3]
const WRITTEN_LINES: [(u32, u32); 7] = [
    (test::LEVEL_1_PASS, line::STROBE),
    (test::LEVEL_2_PASS, line::LEVEL_2_PASS),
    (test::LEVEL_2_FAIL, line::LEVEL_2_FAIL),
    (test::LEVEL_3_PASS, line::LEVEL_3_PASS),
    (test::LEVEL_3_FAIL, line::LEVEL_3_FAIL),
    (test::FRONT_BUSY, line::FRONT_BUSY),
    (test::INHIBIT, line::INHIBIT),
];

/// The lines of these TEST bits; those not written are low. [Test.2]
fn written_lines(written: u32) -> u32 {
    let mut lines = 0;
    for (bit, line) in WRITTEN_LINES {
        if written & bit != 0 {
            lines |= line;
        }
    }
    lines
}

/// A written acknowledge stands for all lines of its branch. [Test.4] [Open: T9]
fn written_acknowledges(written: u32) -> u32 {
    let mut acknowledges = 0;
    for branch in 0..BRANCHES as u32 {
        if written & 1 << (test::ACKNOWLEDGE_SHIFT + branch) != 0 {
            acknowledges |= 0xFF << (8 * branch);
        }
    }
    acknowledges
}

impl Supervisor {
    /// Test mode opens the control register, and no other, to writes while active. [Test.2]
    pub(super) fn is_open(&self, number: u32) -> bool {
        number == Self::CONTROL && self.csr & csr::TEST_MODE != 0
    }

    /// A write to TEST joins those that wait, whatever the mode. Without hold a single step does nothing. [Test.6]
    /// [Test.8a] [Open: T9]
    pub(super) fn write_test(&mut self, value: u32) {
        let taken = if self.csr & csr::HOLD == 0 { value & !test::SINGLE_STEP } else { value };
        self.test |= taken;
    }

    /// A tick that runs leaves nothing waiting: used by it or dropped. [Test.6] [Test.8a]
    #[inline]
    pub(super) fn use_up(&mut self) {
        self.test = 0;
    }

    /// RESET drops pulses and step that wait. [Test.8b]
    pub(super) fn drop_waiting(&mut self) {
        self.test = 0;
    }

    /// Under hold a tick runs only where a single step waits, in test mode or not. [Test.7a] [Test.8a]
    pub(super) fn is_held(&self) -> bool {
        let steps = self.test & test::SINGLE_STEP != 0;
        self.csr & csr::HOLD != 0 && !steps
    }

    /// The answer of a held tick. Outside pulses that count are stopped, GO or not; in test mode none counts. Lines and
    /// words are those that stand. [Test.7a] [Open: T9]
    #[cold]
    pub(super) fn held(&self, outside: Input) -> Answer {
        let counted = control::counted(self.control, outside.triggers, outside.lines);
        let stopped = if self.csr & csr::TEST_MODE != 0 { 0 } else { counted };
        Answer {
            stopped: stopped as u16,
            scaled: 0,
            lost: 0,
            rejected: 0,
            accepted: 0,
            lines: Self::lines_out(self),
            outcome: Outcome::Nothing,
            finished: [None; BRANCHES],
            shown: self.branches.each_ref().map(Branch::shown),
        }
    }

    /// What is in force in a tick that runs. In test mode it is what was written, but for the acknowledges, which need
    /// bit 14. Bit 0 pulses the inputs that are enabled now. [Test.2]–[Test.4] [Test.6]
    #[cold]
    pub(super) fn in_force(&self, outside: Input) -> Input {
        if self.csr & csr::TEST_MODE == 0 {
            return outside;
        }
        let written = self.test;
        let enabled = (self.control >> control::ENABLE_SHIFT) & TRIGGER_BITS;
        let has_acknowledges = written & test::ENABLE_ACKNOWLEDGES != 0;
        Input {
            triggers: if written & test::LEVEL_1_PASS != 0 { enabled } else { 0 },
            lines: written_lines(written),
            acknowledges: if has_acknowledges { written_acknowledges(written) } else { outside.acknowledges },
        }
    }
}
