//! Register 20, STATE: the 32 bits of section 3.11 of source document 001, under the names they have there. [State.1]
//! [State.2]

use super::{is_ready, line, raised, BranchState, MainState, Supervisor, BRANCHES};

impl Supervisor {
    /// STATE as the record stands at the read, with what is kept of the latest tick that ran. [State.3] [State.8a]
    pub(super) fn state(&self) -> u32 {
        let mut bits = [false; 32];
        bits[..20].copy_from_slice(&self.module_bits());
        bits[20..].copy_from_slice(&self.branch_bits());
        packed(bits)
    }

    /// Bits 0–19.
    fn module_bits(&self) -> [bool; 20] {
        let kept = |line: u32| self.kept_lines & line != 0;
        let raised = |line: u8| self.raised & line != 0;
        let blind = self.blind > 0;
        let ready = is_ready(self.csr, self.main, self.user_sync_waiting, blind, self.kept_lines);
        [
            raised(raised::LEVEL_1_OK),                                 // 0 LEVEL 1 ACCEPT [State.7]
            raised(raised::LEVEL_2_START),                              // 1 LEVEL 2 START [State.2]
            kept(line::LEVEL_2_PASS),                                   // 2 LEVEL 2 PASS [State.6]
            kept(line::LEVEL_2_FAIL),                                   // 3 LEVEL 2 FAIL [State.6]
            raised(raised::LEVEL_2_ACCEPT),                             // 4 LEVEL 2 ACCEPT [State.2]
            raised(raised::LEVEL_3_START),                              // 5 LEVEL 3 START [State.2]
            kept(line::LEVEL_3_PASS),                                   // 6 LEVEL 3 PASS [State.6]
            kept(line::LEVEL_3_FAIL),                                   // 7 LEVEL 3 FAIL [State.6]
            raised(raised::LEVEL_3_ACCEPT),                             // 8 LEVEL 3 ACCEPT [State.2]
            self.clear_count > 0,                                       // 9 CLEAR [State.2] [Main.16]
            kept(line::FRONT_BUSY),                                     // 10 FRONT END BUSY [State.3]
            kept(line::INHIBIT),                                        // 11 EXTERNAL INHIBIT [State.3]
            self.latched,                                               // 12 LATCHED TRIGGER [State.7]
            !ready,                                                     // 13 TS BUSY [State.4b]
            self.main != MainState::Idle,                               // 14 SEQUENCER ACTIVE [State.2]
            ready,                                                      // 15 READY [State.4a]
            self.is_active(),                                           // 16 ACTIVE [State.2] [Active.1]
            self.main == MainState::SyncHold || self.user_sync_waiting, // 17 SYNCHRONIZATION [State.5]
            self.all_empty(),                                           // 18 BUFFERS EMPTY [State.2]
            (0..BRANCHES).any(|b| !self.is_below_depth(self.csr, b)),   // 19 BUFFER FULL [State.7]
        ]
    }

    /// Bits 20–31. AND and OR take the controllers enabled at the read; over none AND is high and OR is low. [State.7]
    fn branch_bits(&self) -> [bool; 12] {
        let strobe = |b: usize| self.branches[b].state == BranchState::Strobe;
        let enabled = |b: usize| byte(self.roc_enable, b);
        let high = |b: usize| byte(self.kept_acknowledges, b) & enabled(b);
        let and = |b: usize| high(b) == enabled(b);
        let or = |b: usize| high(b) != 0;
        [
            strobe(0), // 20 ROC BRANCH 1 STROBE [State.2]
            and(0),    // 21 ROC BRANCH 1 AND_ACK [State.7]
            or(0),     // 22 ROC BRANCH 1 OR_ACK [State.7]
            strobe(1), // 23 ROC BRANCH 2 STROBE [State.2]
            and(1),    // 24 ROC BRANCH 2 AND_ACK [State.7]
            or(1),     // 25 ROC BRANCH 2 OR_ACK [State.7]
            strobe(2), // 26 ROC BRANCH 3 STROBE [State.2]
            and(2),    // 27 ROC BRANCH 3 AND_ACK [State.7]
            or(2),     // 28 ROC BRANCH 3 OR_ACK [State.7]
            strobe(3), // 29 ROC BRANCH 4 STROBE [State.2]
            and(3),    // 30 ROC BRANCH 4 AND_ACK [State.7]
            or(3),     // 31 ROC BRANCH 4 OR_ACK [State.7]
        ]
    }
}

/// A branch's byte of a word laid out as register 10. [Registers.1] [Tick.1]
const fn byte(word: u32, branch: usize) -> u8 {
    (word >> (8 * branch)) as u8
}

/// Bit 0 first.
fn packed(bits: [bool; 32]) -> u32 {
    bits.iter().rev().fold(0, |word, &bit| word << 1 | u32::from(bit))
}
