//! The spoiled rule.

use super::registers::is_listed;
use super::{control, csr, decline, word, MainState, Supervisor};

impl Supervisor {
    /// The spoiled rule, made at every call. Numbers are tested without a way out between them: it almost never finds
    /// anything, and so it is quicker. [Spoiled.1a]–[Spoiled.1k] [Blind.3] [Bytes.9]
    #[inline(always)]
    pub fn is_spoiled(&self) -> bool {
        let numbers = self.has_stray_bits() | self.is_over_a_limit() | !is_listed(self.assign);
        numbers || self.has_spoiled_main() || (!self.all_blank() && self.has_spoiled_branches())
    }

    /// The decline that register and memory calls test first. [Declines.2a] [Declines.3a] [Declines.4a]
    pub(super) fn not_spoiled(&self) -> Result<(), u8> {
        if self.is_spoiled() {
            Err(decline::SPOILED)
        } else {
            Ok(())
        }
    }

    /// Bits that a register, a counter or the code does not have. A counter has the width of its factor, so that both
    /// are tested at once. [Spoiled.1a] [Spoiled.1b] [Bytes.9]
    #[inline]
    fn has_stray_bits(&self) -> bool {
        let timers = [self.t1.0, self.t2.0, self.t3.0, self.t4.0];
        let mut over = false;
        for i in 0..4 {
            over |= (self.factors[i] | self.counters[i]) > Self::WIDE_FACTOR;
            over |= (self.factors[4 + i] | self.counters[4 + i]) > Self::NARROW_FACTOR;
            over |= timers[i] > 0xFFFF;
        }
        let stray = (self.csr & !csr::STORED)
            | (self.control & !control::BITS)
            | (self.sync_interval & !0xFFFF)
            | (self.t5.0 & !0xFF)
            | u32::from(self.code & !word::CODE);
        (stray != 0) | over
    }

    /// [Spoiled.1h] [Spoiled.1i] [Spoiled.1j] [Blind.3]
    #[inline]
    fn is_over_a_limit(&self) -> bool {
        (self.sync_count > Self::SYNC_COUNT_LIMIT)
            | (self.age > Self::AGE_LIMIT)
            | (self.clear_count > Self::CLEAR_COUNT_LIMIT)
            | (self.blind > Self::BLIND_TICKS)
    }

    /// [Spoiled.1c] [Spoiled.1k]
    #[inline]
    fn has_spoiled_main(&self) -> bool {
        let no_class = self.main == MainState::Wait2 && !matches!(self.class, 2 | 3);
        self.main != MainState::Idle && (self.user_sync_waiting || no_class)
    }

    /// The branches' clauses. [Spoiled.1d] [Spoiled.1f] [Spoiled.1g]
    fn has_spoiled_branches(&self) -> bool {
        let may_be_full = self.user_sync_waiting | matches!(self.main, MainState::Space | MainState::SyncHold);
        let most = Self::DEPTH - u8::from(!may_be_full);
        self.branches.iter().any(|branch| branch.is_spoiled(most))
    }

    /// Every branch at Rest, which is 0, without a word, and with nothing in any place: no clause is broken then.
    #[inline]
    fn all_blank(&self) -> bool {
        let queues = self.branches.iter().fold(0, |all, branch| all | branch.queue);
        let others = self.branches.iter().fold(0, |all, branch| all | branch.used | branch.state as u8);
        queues == 0 && others == 0
    }
}
