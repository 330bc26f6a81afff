//! What the compared calls met of the blind time after a rejected pattern. [Blind.1]–[Blind.5]

use crate::numbers::*;
use reference::machine::{csr, line};

pub const EVENTS: [&str; 21] = [
    "tick that starts with blind count 0",
    "tick that starts with blind count 1",
    "tick that starts with blind count 2",
    "pulse lost for the blind count alone",
    "pulse stopped while blind",
    "pulse scaled away while blind",
    "rejection in the tick after a blind time",
    "tick without GO lowers the blind count",
    "tick in a cycle lowers the blind count",
    "tick declined 2 while blind",
    "tick declined 5 while blind",
    "tag loaded while blind",
    "assign 00 counts a pulse while blind",
    "assign 01-0C counts a pulse while blind",
    "assign 0D counts no pulse while blind",
    "assign 0E counts no pulse while blind",
    "assign 0F counts no pulse while blind",
    "RESET while blind",
    "INITIALIZE while blind",
    "GO rises in a write while blind",
    "write to 1-16 carried out while blind",
];

pub struct BlindCounts {
    pub events: [u64; EVENTS.len()],
    /// The record that the latest end of a blind time left.
    ended: Option<Box<Record>>,
}

impl BlindCounts {
    pub fn new() -> BlindCounts {
        BlindCounts { events: [0; EVENTS.len()], ended: None }
    }

    /// A call that both machines answered alike.
    pub fn add(&mut self, before: &Record, call: Call, reply: &Reply, after: &Record) {
        match (call[0], reply[0]) {
            (TICK, 0) => self.add_tick(before, call, reply, after),
            (TICK, decline @ (2 | 5)) => self.count([(9, decline == 2), (10, decline == 5)], before[BLIND] > 0),
            (WRITE_REGISTER, 0) if before[BLIND] > 0 => self.add_write(before, call, after),
            _ => {}
        }
    }

    fn add_tick(&mut self, before: &Record, call: Call, reply: &Reply, after: &Record) {
        self.events[before[BLIND] as usize] += 1;
        let rejected = reply[3] >> 32 != 0;
        self.events[6] += u64::from(rejected && self.ended.as_deref() == Some(before));
        if before[BLIND] == 1 {
            self.ended = Some(Box::new(*after));
        }
        let lost = reply[3] & 0xFFF != 0;
        let counted = before[18] != after[18];
        let events = [
            (3, lost && is_ready_but_blind(before, call[2] as u32)),
            (4, reply[2] & 0xFFF != 0),
            (5, reply[2] >> 32 != 0),
            (7, before[0] & 1 == 0),
            (8, before[STATE] != 0),
            (11, reply[5] >> 8 == 3),
            (12, before[19] == 0 && counted),
            (13, (0x01..=0x0C).contains(&before[19]) && counted),
            (14, before[19] == 0x0D && lost && !counted),
            (15, before[19] == 0x0E && lost && !counted),
            (16, before[19] == 0x0F && lost && !counted),
        ];
        self.count(events, before[BLIND] > 0);
    }

    fn add_write(&mut self, before: &Record, call: Call, after: &Record) {
        let value = if call[1] == 0 { call[2] as u32 } else { 0 };
        let initialize = value & csr::INITIALIZE != 0;
        let events = [
            (17, value & csr::RESET != 0 && !initialize),
            (18, initialize),
            (19, after[0] & !before[0] & 1 != 0),
            (20, (1..=16).contains(&call[1])),
        ];
        self.count(events, true);
    }

    fn count<const N: usize>(&mut self, events: [(usize, bool); N], blind: bool) {
        for (event, is) in events {
            self.events[event] += u64::from(is && blind);
        }
    }
}

/// The rest of the ready rule. [Ready.1]
fn is_ready_but_blind(n: &Record, lines: u32) -> bool {
    let csr = n[0] as u32;
    let wanted = csr & (csr::PAUSE_AND_SYNC | csr::FORCE_SYNC) != 0 && csr & csr::ENABLE_SYNC != 0;
    let inhibited = lines & line::INHIBIT != 0 && csr & csr::OVERRIDE_INHIBIT == 0;
    let idle = n[STATE] == 0 && n[WAITING] == 0 && !wanted;
    csr & csr::GO != 0 && idle && lines & line::FRONT_BUSY == 0 && !inhibited
}
