//! The tick and its answer.

use super::test_mode::Input;
use super::{csr, decline, line, line_out, raised, MainState, Supervisor, BRANCHES, MEMORY_WORDS, TRIGGER_BITS};

/// What became of an event, or that a tag was loaded. [Answer.1]
#[derive(Clone, Copy, Debug, PartialEq, Eq, Hash)]
pub enum Outcome {
    Nothing,
    Cleared,
    Event(u8),
    Tag(u8),
}

impl Outcome {
    /// The word that goes into every queue.
    #[inline]
    pub const fn word(self) -> Option<u8> {
        match self {
            Outcome::Event(word) | Outcome::Tag(word) => Some(word),
            Outcome::Nothing | Outcome::Cleared => None,
        }
    }
}

/// What a tick gives back. [Answer.1]
#[derive(Clone, Copy, Debug, PartialEq, Eq, Hash)]
pub struct Answer {
    pub stopped: u16,
    pub scaled: u16,
    pub lost: u16,
    pub rejected: u16,
    pub accepted: u16,
    /// Lines out after the tick, see [`line_out`].
    pub lines: u16,
    pub outcome: Outcome,
    pub finished: [Option<u8>; BRANCHES],
    pub shown: [Option<u8>; BRANCHES],
}

impl Answer {
    /// Nothing came in and nothing moved.
    const NOTHING: Answer = Answer {
        stopped: 0,
        scaled: 0,
        lost: 0,
        rejected: 0,
        accepted: 0,
        lines: 0,
        outcome: Outcome::Nothing,
        finished: [None; BRANCHES],
        shown: [None; BRANCHES],
    };
}

impl Supervisor {
    /// One tick of 20 ns. Declines 1, 2, 5, which use up nothing that waits. [Declines.5a]–[Declines.5c] [Open: T9]
    pub fn tick(&mut self, memory: &[u16], triggers: u32, lines: u32, acknowledges: u32) -> Result<Answer, u8> {
        if self.is_spoiled() {
            return Err(decline::SPOILED);
        }
        let Ok(memory) = <&[u16; MEMORY_WORDS]>::try_from(memory) else {
            return Err(decline::LENGTH);
        };
        if triggers > TRIGGER_BITS || lines > line::ALL {
            return Err(decline::VALUE);
        }

        // One test where hold and test mode are off.
        if self.csr & csr::MODES != 0 {
            return Ok(self.tick_in_a_mode(memory, Input { triggers, lines, acknowledges }));
        }
        let mut answer = Answer::NOTHING;
        self.run(memory, Input { triggers, lines, acknowledges }, &mut answer);
        Ok(answer)
    }

    /// A tick under hold or in test mode. [Test.2] [Test.6] [Test.7a]
    fn tick_in_a_mode(&mut self, memory: &[u16; MEMORY_WORDS], outside: Input) -> Answer {
        if self.is_held() {
            return self.held(outside);
        }
        let input = self.in_force(outside);
        let mut answer = Answer::NOTHING;
        self.run(memory, input, &mut answer);
        answer
    }

    /// A tick that runs; it fills in its answer. What the moves test is the record at the tick's start: the pulses come
    /// first, main or the user sync moves before the branches, and what is kept is stored last. [Tick.2]
    fn run(&mut self, memory: &[u16; MEMORY_WORDS], input: Input, answer: &mut Answer) {
        let Input { triggers, lines, acknowledges } = input;
        let start_csr = self.csr;
        let start_main = self.main;
        self.take_pulses(memory, triggers, lines, answer);
        // The user sync moves only while main is Idle: it loads then, and does not wait in a cycle. [Spoiled.1k]
        answer.outcome = match start_main {
            MainState::Idle => self.user_sync(start_csr),
            _ => self.cycle(start_csr, lines),
        };
        self.move_branches(acknowledges, answer);
        self.close(lines, acknowledges);
        answer.lines = self.lines_out();
    }

    /// The branches' moves with the load behind them. Where all are quiet and nothing is loaded, none moves.
    /// [Branches.1]–[Branches.5]
    #[inline]
    fn move_branches(&mut self, acknowledges: u32, answer: &mut Answer) {
        let load = answer.outcome.word();
        if load.is_none() && self.all_quiet() {
            return;
        }
        let enabled = self.roc_enable.to_le_bytes();
        let acknowledged = acknowledges.to_le_bytes();
        for (b, branch) in self.branches.iter_mut().enumerate() {
            answer.finished[b] = branch.step(enabled[b], acknowledged[b], load);
            answer.shown[b] = branch.shown();
        }
    }

    /// What every tick that runs leaves: status 16, what came in, for STATE, and nothing that waits. [Ready.6] [State.3]
    /// [Test.6]
    #[inline]
    fn close(&mut self, lines: u32, acknowledges: u32) {
        if lines & line::INHIBIT != 0 {
            self.csr |= csr::INHIBIT;
        }
        self.kept_lines = lines;
        self.kept_acknowledges = acknowledges;
        self.use_up();
    }

    /// [Answer.1] [Main.16]
    #[inline]
    pub(super) fn lines_out(&self) -> u16 {
        let line = |up: bool, bit: u16| if up { bit } else { 0 };
        u16::from(self.raised & raised::ALL)
            | line(self.clear_count > 0, line_out::CLEAR)
            | line(self.csr & csr::LEVEL_1_HARDWARE != 0, line_out::LEVEL_1_HARDWARE)
            | (u16::from(self.accept_pattern) << line_out::ACCEPT_PATTERN_SHIFT)
    }
}
