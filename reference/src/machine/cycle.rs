//! The main sequencer's moves in a cycle, and the user sync's at Idle. Both move before the branches, so that what they
//! test of these is the tick's start. [Tick.2]

use super::{assign, csr, line, raised, sync_wanted, word, MainState, Outcome, Supervisor, BRANCHES};

impl Supervisor {
    /// Main's move in a cycle, with the CSR of the tick's start.
    #[inline]
    pub(super) fn cycle(&mut self, start_csr: u32, lines: u32) -> Outcome {
        self.age = (self.age + 1).min(Self::AGE_LIMIT); // [Main.1]
        match self.main {
            MainState::Wait2 => return self.wait_2(start_csr, lines),
            MainState::Wait3 => return self.wait_3(start_csr, lines),
            MainState::Front if self.front_open(start_csr, lines) => return self.load_event(start_csr),
            MainState::Delay => self.delay(),
            MainState::Space => self.space(start_csr),
            MainState::SyncHold => self.sync_hold(start_csr),
            MainState::Clear => self.clear(start_csr, lines),
            MainState::Idle | MainState::Front => {}
        }
        Outcome::Nothing
    }

    /// A fail beats a pass. [Main.3] [Main.4]
    #[inline]
    fn wait_2(&mut self, start_csr: u32, lines: u32) -> Outcome {
        if lines & line::LEVEL_2_FAIL != 0 {
            return self.fail(assign::LEVEL_2_FAIL, start_csr);
        }
        if lines & line::LEVEL_2_PASS != 0 {
            self.raised |= raised::LEVEL_2_ACCEPT;
            if self.class == 3 {
                self.raised |= raised::LEVEL_3_START;
                self.main = MainState::Wait3;
            } else {
                self.main = MainState::Delay;
            }
        }
        Outcome::Nothing
    }

    /// [Main.5]
    #[inline]
    fn wait_3(&mut self, start_csr: u32, lines: u32) -> Outcome {
        if lines & line::LEVEL_3_FAIL != 0 {
            return self.fail(assign::LEVEL_3_FAIL, start_csr);
        }
        if lines & line::LEVEL_3_PASS != 0 {
            self.raised |= raised::LEVEL_3_ACCEPT;
            self.main = MainState::Front;
        }
        Outcome::Nothing
    }

    /// A fail that Wait 2 or Wait 3 acts on; `level` is the first of the codes that count it. [Main.6] [Main.15]
    /// [Assign.2]
    fn fail(&mut self, level: u32, start_csr: u32) -> Outcome {
        self.count(level);
        if start_csr & csr::USE_T1 != 0 && self.age >= self.t1.ticks() {
            self.late = true;
            self.csr |= csr::LATE_FAIL;
            self.count(assign::LATE_FAIL);
            self.main = MainState::Front;
            return Outcome::Nothing;
        }
        self.clear_count = if start_csr & csr::USE_T5 != 0 { self.t5.ticks().max(1) } else { 1 };
        self.main = MainState::Clear;
        Outcome::Cleared
    }

    /// [Main.7]
    #[inline]
    fn delay(&mut self) {
        if self.age >= self.t2.ticks() {
            self.raised |= raised::LEVEL_2_ACCEPT;
        }
        if self.age >= self.t3.ticks() {
            self.raised |= raised::LEVEL_3_ACCEPT;
        }
        if self.raised & raised::BOTH_ACCEPTS == raised::BOTH_ACCEPTS {
            self.main = MainState::Front;
        }
    }

    /// The test of Front, which Clear makes too, with the risen age. [Main.8] [Main.15]
    #[inline]
    fn front_open(&self, start_csr: u32, lines: u32) -> bool {
        lines & line::FRONT_BUSY == 0 && !(start_csr & csr::USE_T4 != 0 && self.age < self.t4.ticks())
    }

    /// [Main.9]–[Main.12] [Assign.4]
    fn load_event(&mut self, start_csr: u32) -> Outcome {
        let mut event = self.code;
        if self.late {
            event |= word::LATE;
        }
        self.main = MainState::Space;
        if start_csr & csr::ENABLE_SYNC != 0 && self.sync_interval > 0 {
            if self.sync_count + 1 >= self.sync_interval {
                event |= word::SYNC;
                self.csr |= csr::SYNC;
                self.count(assign::SYNC);
                self.main = MainState::SyncHold;
            } else {
                self.sync_count += 1;
            }
        }
        self.scalers[0] = self.scalers[0].wrapping_add(1);
        Outcome::Event(event)
    }

    /// [Main.13]
    #[inline]
    fn space(&mut self, start_csr: u32) {
        if (0..BRANCHES).all(|branch| self.is_below_depth(start_csr, branch)) {
            self.idle_main();
        }
    }

    /// [Main.14]
    #[inline]
    fn sync_hold(&mut self, start_csr: u32) {
        if self.all_empty() {
            self.idle_main();
            self.sync_count = 0;
            if start_csr & csr::PAUSE_ON_NEXT_SYNC != 0 {
                self.csr &= !(csr::PAUSE_ON_NEXT_SYNC | csr::GO);
            }
        }
    }

    /// [Main.15]
    #[inline]
    fn clear(&mut self, start_csr: u32, lines: u32) {
        if self.clear_count > 0 {
            self.clear_count -= 1;
        } else if self.front_open(start_csr, lines) {
            self.idle_main();
        }
    }

    /// A move to Idle, and main's part of RESET. [Main.17]
    pub(super) fn idle_main(&mut self) {
        self.main = MainState::Idle;
        self.age = 0;
        self.clear_count = 0;
        self.class = 0;
        self.code = 0;
        self.accept_pattern = 0;
        self.late = false;
        self.raised = 0;
    }

    /// The user sync's move while main is Idle. [Usersync.1]
    #[inline]
    pub(super) fn user_sync(&mut self, start_csr: u32) -> Outcome {
        if self.user_sync_waiting {
            if self.all_empty() {
                self.end_user_sync(start_csr);
            }
            return Outcome::Nothing;
        }
        if !sync_wanted(start_csr) {
            return Outcome::Nothing;
        }
        self.user_sync_waiting = true;
        self.csr |= csr::SYNC;
        self.count(assign::SYNC);
        Outcome::Tag(word::TAG)
    }

    /// [Usersync.2]
    fn end_user_sync(&mut self, start_csr: u32) {
        self.user_sync_waiting = false;
        self.sync_count = 0;
        self.csr &= !(csr::PAUSE_AND_SYNC | csr::FORCE_SYNC);
        if start_csr & csr::PAUSE_AND_SYNC != 0 {
            self.csr &= !csr::GO;
        }
    }

    /// Scaler 1 where something happened that sixteen codes count, named by the first of them. No tick counts twice:
    /// each code is of one kind, and a tick has at most one of a kind. [Assign.1] [Assign.3a] [Assign.3b]
    #[inline]
    pub(super) fn count(&mut self, first: u32) {
        let counts = self.assign & !0xF == first;
        self.scalers[1] = self.scalers[1].wrapping_add(counts.into());
    }
}
