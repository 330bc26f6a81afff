//! What the compared calls met of register 20, STATE. [State.1]–[State.8b]

use crate::counts::STATES;
use crate::numbers::*;
use reference::machine::{csr, Supervisor};

/// The names of section 3.11 of source document 001.
const BITS: [&str; 32] = [
    "LEVEL 1 ACCEPT",
    "LEVEL 2 START",
    "LEVEL 2 PASS",
    "LEVEL 2 FAIL",
    "LEVEL 2 ACCEPT",
    "LEVEL 3 START",
    "LEVEL 3 PASS",
    "LEVEL 3 FAIL",
    "LEVEL 3 ACCEPT",
    "CLEAR",
    "FRONT END BUSY",
    "EXTERNAL INHIBIT",
    "LATCHED TRIGGER",
    "TS BUSY",
    "SEQUENCER ACTIVE",
    "READY",
    "ACTIVE",
    "SYNCHRONIZATION",
    "BUFFERS EMPTY",
    "BUFFER FULL",
    "ROC BRANCH 1 STROBE",
    "ROC BRANCH 1 AND_ACK",
    "ROC BRANCH 1 OR_ACK",
    "ROC BRANCH 2 STROBE",
    "ROC BRANCH 2 AND_ACK",
    "ROC BRANCH 2 OR_ACK",
    "ROC BRANCH 3 STROBE",
    "ROC BRANCH 3 AND_ACK",
    "ROC BRANCH 3 OR_ACK",
    "ROC BRANCH 4 STROBE",
    "ROC BRANCH 4 AND_ACK",
    "ROC BRANCH 4 OR_ACK",
];

const EVENTS: [&str; 23] = [
    "write to STATE while active",
    "write to STATE while inactive",
    "write to STATE of a spoiled record",
    "STATE of a spoiled record",
    "STATE right after RESET",
    "STATE right after RESET, with the latch and lines kept",
    "STATE right after INITIALIZE",
    "STATE right after a tick declined 2",
    "STATE right after a tick declined 5",
    "STATE with odd kept lines",
    "STATE after a rejected pattern",
    "STATE after an accepted pattern",
    "STATE while blind, else ready",
    "STATE under an overridden inhibit, ready",
    "STATE in a user sync's wait",
    "STATE with a user sync wanted, not yet loaded",
    "STATE with a branch at Drop, all empty",
    "STATE with eight words held",
    "STATE under the ROC lock, one word held",
    "STATE under the lock of branch 4, one word held there",
    "STATE under the lock of branch 4, words elsewhere alone",
    "STATE with acknowledges kept and other controllers since",
    "STATE with a kept acknowledge that is not enabled",
];

pub struct StateCounts {
    /// Each bit met as 0 and as 1.
    bits: [[u64; 2]; BITS.len()],
    /// Reads in each of main's states.
    states: [u64; 8],
    events: [u64; EVENTS.len()],
    /// What the call before was, if an event names it, and the record that it left.
    latest: Option<(usize, Box<Record>)>,
    /// Other controllers have been enabled since the latest tick that ran.
    others: bool,
}

impl StateCounts {
    pub fn new() -> StateCounts {
        StateCounts {
            bits: [[0; 2]; BITS.len()],
            states: [0; 8],
            events: [0; EVENTS.len()],
            latest: None,
            others: false,
        }
    }

    /// A call that both machines answered alike.
    pub fn add(&mut self, before: &Record, call: Call, reply: &Reply, after: &Record) {
        let is_state = call[1] == u64::from(Supervisor::STATE);
        match (call[0], reply[0]) {
            (READ_REGISTER, 0) if is_state => self.add_read(before, reply[1]),
            (READ_REGISTER, 1) if is_state => self.events[3] += 1,
            (WRITE_REGISTER, 1) if is_state => self.events[2] += 1,
            (WRITE_REGISTER, _) if is_state => self.events[usize::from(!is_active(before))] += 1,
            (WRITE_REGISTER | WRITE_BYTES, 0) if call[1] == 10 => self.others |= before[10] != after[10],
            (TICK, 0) => self.others = false,
            _ => {}
        }
        self.latest = event_of(call, reply).map(|event| (event, Box::new(*after)));
    }

    /// Every name with its count.
    pub fn rows(&self) -> Vec<(String, u64)> {
        let mut rows = Vec::new();
        for (bit, (name, counts)) in BITS.iter().zip(self.bits).enumerate() {
            rows.push((format!("bit {bit} {name}, 0"), counts[0]));
            rows.push((format!("bit {bit} {name}, 1"), counts[1]));
        }
        rows.extend(STATES.iter().zip(self.states).map(|(name, count)| (format!("STATE in {name}"), count)));
        rows.extend(EVENTS.iter().zip(self.events).map(|(name, count)| (name.to_string(), count)));
        rows
    }

    fn add_read(&mut self, n: &Record, value: u64) {
        for (bit, count) in self.bits.iter_mut().enumerate() {
            count[(value >> bit & 1) as usize] += 1;
        }
        self.states[n[STATE] as usize] += 1;
        if let Some((event, record)) = &self.latest {
            let is = **record == *n;
            self.events[*event] += u64::from(is);
            let kept = n[LATCHED] == 1 && n[KEPT_LINES] != 0;
            self.events[5] += u64::from(is && kept && *event == 4);
        }
        let csr = |bit: u32| n[0] as u32 & bit != 0;
        let is_high = |bit: u32| value >> bit & 1 == 1;
        let used = |b: usize| n[BRANCH + 3 * b + 1];
        let wanted = (csr(csr::PAUSE_AND_SYNC) || csr(csr::FORCE_SYNC)) && csr(csr::ENABLE_SYNC);
        let is_free = csr(csr::GO) && n[STATE] == 0 && n[WAITING] == 0 && !wanted && n[KEPT_LINES] & 0x60 == 0;
        let branch_4_alone = csr(csr::ROC_LOCK_BRANCH_4) && !csr(csr::ROC_LOCK);
        let events = [
            (9, n[KEPT_LINES] > 0x7F),
            (10, n[LATCHED] == 1 && n[BLIND] == 2),
            (11, n[LATCHED] == 1 && n[STATE] != 0),
            (12, is_free && n[BLIND] > 0),
            (13, is_high(15) && is_high(11)),
            (14, n[WAITING] == 1),
            (15, wanted && n[WAITING] == 0),
            (16, is_high(18) && (0..4).any(|b| n[BRANCH + 3 * b + 2] == 2)),
            (17, (0..4).any(|b| used(b) == 8)),
            (18, csr(csr::ROC_LOCK) && (0..4).any(|b| used(b) == 1)),
            (19, branch_4_alone && used(3) == 1 && (0..3).all(|b| used(b) == 0)),
            (20, branch_4_alone && used(3) == 0 && (0..3).any(|b| used(b) > 0)),
            (21, n[KEPT_ACKNOWLEDGES] != 0 && self.others),
            (22, n[KEPT_ACKNOWLEDGES] & !n[10] != 0),
        ];
        for (event, is) in events {
            self.events[event] += u64::from(is);
        }
    }
}

/// Which event a read of STATE right after this call is.
fn event_of(call: Call, reply: &Reply) -> Option<usize> {
    let value = if call[1] == 0 { call[2] as u32 } else { 0 };
    match (call[0], reply[0]) {
        (WRITE_REGISTER, 0) if value & csr::INITIALIZE != 0 => Some(6),
        (WRITE_REGISTER, 0) if value & csr::RESET != 0 => Some(4),
        (TICK, 2) => Some(7),
        (TICK, 5) => Some(8),
        _ => None,
    }
}
