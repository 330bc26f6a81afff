//! The pulses of a tick: which of them count, what the prescalers leave, and what becomes of a pattern.

use super::{control, csr, is_ready, raised, word, Answer, MainState, Supervisor, MEMORY_WORDS};

impl Supervisor {
    /// Takes the pulses in, before any other move of the tick, and says in the masks what became of them. The blind
    /// count falls in every tick that runs; `latched` is for STATE. [Pulses.1]–[Pulses.5] [Ready.1]–[Ready.5] [Blind.2]
    /// [Blind.4] [State.7] [Open: T8]
    #[inline]
    pub(super) fn take_pulses(&mut self, memory: &[u16; MEMORY_WORDS], triggers: u32, lines: u32, answer: &mut Answer) {
        let counted = control::counted(self.control, triggers, lines);
        let blind = self.blind > 0;
        self.blind = self.blind.saturating_sub(1);
        self.latched = false;
        if counted == 0 {
            return;
        }
        if self.csr & csr::GO == 0 && self.control & control::OPEN_PRESCALES == 0 {
            answer.stopped = counted as u16; // [Pulses.2]
            return;
        }
        let scaled = self.prescale(counted);
        let passed = counted & !scaled;
        answer.scaled = scaled as u16;
        if passed == 0 {
            return;
        }
        if !is_ready(self.csr, self.main, self.user_sync_waiting, blind, lines) {
            answer.lost = passed as u16;
        } else if self.latch(memory[passed as usize]) {
            answer.accepted = passed as u16;
        } else {
            answer.rejected = passed as u16;
            self.blind = Self::BLIND_TICKS;
        }
        self.latched = (answer.accepted | answer.rejected) != 0;
        self.count_passed(passed, answer);
    }

    /// Takes the counted pulses through the prescalers of inputs 1–8; gives those scaled away. Inputs 9–12 have none.
    /// All eight alike, with no jump for each. [Pulses.3]–[Pulses.5]
    #[inline]
    fn prescale(&mut self, counted: u32) -> u32 {
        let mut scaled = 0;
        for input in 0..8 {
            let pulse = (counted >> input) & 1 != 0;
            let counter = self.counters[input];
            let above = counter > 0; // above 0, be it above its factor too [Bytes.4a] [Bytes.9]
            let next = if above { counter - 1 } else { self.factors[input] };
            self.counters[input] = if pulse { next } else { counter };
            scaled |= u32::from(pulse & above) << input;
        }
        scaled
    }

    /// The latched pattern's memory word: accepts the event, or changes nothing and says no. [Memory.2] [Memory.3]
    /// [Ready.4] [Ready.5] [Main.2]
    #[inline]
    fn latch(&mut self, word: u16) -> bool {
        let classes = (word >> 1) & 0b111;
        if word & 1 == 0 || classes == 0 {
            return false;
        }
        self.class = classes.trailing_zeros() as u8 + 1;
        self.code = (word >> 4) as u8 & word::CODE;
        self.age = 0;
        self.accept_pattern = (word >> 8) as u8;
        self.raised |= raised::LEVEL_1_OK;
        if self.class == 1 {
            self.main = MainState::Delay;
        } else {
            self.raised |= raised::LEVEL_2_START;
            self.main = MainState::Wait2;
        }
        true
    }

    /// Scaler 1 where a pulse passed, by the codes that count pulses. [Assign.1] [Assign.3b]
    #[inline]
    fn count_passed(&mut self, passed: u32, answer: &Answer) {
        let counts = match self.assign {
            0x00 => true,
            code @ 0x01..=0x0C => (passed >> (code - 1)) & 1 != 0,
            0x0D => (answer.rejected | answer.accepted) != 0, // ready, with at least one passed [Open: C1]
            0x0E => answer.accepted != 0,
            0x0F => answer.rejected != 0,
            _ => false,
        };
        self.scalers[1] = self.scalers[1].wrapping_add(u32::from(counts));
    }
}
