//! What the compared calls met of byte-wise access: runs, declines, partial writes and the latches. [Bytes.2]–[Bytes.9]
//! [Bytes.11]

use crate::byte_calls::{bits, width, RUNS};
use crate::numbers::*;
use reference::machine::csr;

/// What is no run, and the registers written by a part of theirs.
const NO_RUNS: [&str; 4] = ["empty", "leaves the four bytes", "starts behind them", "sum over 32 bits"];
const REGISTERS: [&str; 11] = [
    "CSR",
    "control",
    "factor of inputs 1-4",
    "factor of inputs 5-8",
    "ROC enable",
    "sync interval",
    "T1-T4",
    "T5",
    "scaler",
    "assign",
    "TEST",
];

const EVENTS: [&str; 28] = [
    "partial write declined 4",
    "partial write declined 5",
    "partial write of 19 declined 5 for its code",
    "partial write taken with bad bits outside the run",
    "no run to a spoiled record, written: 1",
    "no run to a spoiled record, read: 1",
    "no run to a register that is not there, written: 3",
    "no run to a register that is not there, read: 3",
    "no run to STATE, written: 3",
    "no run to STATE, read: 7",
    "no run to 1-16 while active: 7",
    "no run with a bad value: 7",
    "no run read of a scaler other than its latch: 7",
    "RESET by a part that lacks BYTE(3)",
    "RESET by a part that has BYTE(3)",
    "RESET in the value, outside the run",
    "INITIALIZE by a part that lacks BYTE(3)",
    "INITIALIZE by a part that has BYTE(3)",
    "status bits cleared by bit 31 in a part",
    "scaler read that lacks BYTE(3), other than the scaler",
    "scaler read by a part latches",
    "plain scaler read latches",
    "scaler write that lacks BYTE(3), scaler not 0",
    "scaler write by a part zeroes, latch not 0",
    "RESET with a latch not 0",
    "INITIALIZE with a latch not 0",
    "counter above its factor counts down",
    "counter once above its factor reaches 0 and its pulse passes",
];

pub struct ByteCounts {
    /// Each run carried out, written and read.
    runs: [[u64; RUNS.len()]; 2],
    /// Each kind of no run declined with 7, written and read.
    no_runs: [[u64; NO_RUNS.len()]; 2],
    registers: [u64; REGISTERS.len()],
    events: [u64; EVENTS.len()],
    /// The counters that were above their factors and have only counted down since.
    above: [Option<u64>; 8],
}

impl ByteCounts {
    pub fn new() -> ByteCounts {
        ByteCounts {
            runs: [[0; RUNS.len()]; 2],
            no_runs: [[0; NO_RUNS.len()]; 2],
            registers: [0; REGISTERS.len()],
            events: [0; EVENTS.len()],
            above: [None; 8],
        }
    }

    /// A call that both machines answered alike.
    pub fn add(&mut self, before: &Record, call: Call, reply: &Reply, after: &Record) {
        let is_scaler = matches!(call[1], 17 | 18);
        match call[0] {
            WRITE_BYTES | READ_BYTES => self.add_run(before, call, reply, after),
            READ_REGISTER if reply[0] == 0 && is_scaler => self.events[21] += u64::from(before != after),
            WRITE_REGISTER if reply[0] == 0 && call[1] == 0 => self.add_latched(before, call[2] as u32),
            TICK if reply[0] == 0 => self.add_tick(before, reply, after),
            _ => {}
        }
        if call[0] != TICK {
            self.above = [None; 8];
        }
    }

    /// Every name with its count.
    pub fn rows(&self) -> Vec<(String, u64)> {
        let mut rows = Vec::new();
        for (side, done) in ["written", "read"].iter().enumerate() {
            let runs = RUNS.iter().zip(self.runs[side]);
            rows.extend(runs.map(|(run, count)| (format!("{} {done}", name_of(*run)), count)));
            let no_runs = NO_RUNS.iter().zip(self.no_runs[side]);
            rows.extend(no_runs.map(|(name, count)| (format!("no run, {name}, {done}"), count)));
        }
        let registers = REGISTERS.iter().zip(self.registers);
        rows.extend(registers.map(|(name, count)| (format!("{name} written by a part"), count)));
        rows.extend(EVENTS.iter().zip(self.events).map(|(name, count)| (name.to_string(), count)));
        rows
    }

    fn add_run(&mut self, before: &Record, call: Call, reply: &Reply, after: &Record) {
        let side = usize::from(call[0] == READ_BYTES);
        let run = unpacked(call[3]);
        match RUNS.iter().position(|&is| is == run) {
            None => self.add_no_run(before, call, reply, side),
            Some(at) if reply[0] == 0 => self.runs[side][at] += 1,
            _ => {}
        }
        let part = bits(run);
        if part != 0 && part != u32::MAX {
            match call[0] {
                WRITE_BYTES => self.add_part(before, call, reply, part),
                _ if reply[0] == 0 => self.add_read(before, call, reply, after, part),
                _ => {}
            }
        }
    }

    fn add_no_run(&mut self, before: &Record, call: Call, reply: &Reply, side: usize) {
        let (first, count) = unpacked(call[3]);
        let kind = match first.checked_add(count) {
            None => 3,
            _ if count == 0 && first <= 4 => 0,
            _ if first < 4 => 1,
            _ => 2,
        };
        self.no_runs[side][kind] += u64::from(reply[0] == 7);
        let (number, value) = (call[1], call[2] as u32);
        let is_bad = (number <= 19 || number == 21) && value & !width(number as u32) != 0;
        let is_behind = number == 17 && before[17] != before[LATCH] || number == 18 && before[18] != before[LATCH + 1];
        self.count([
            (4 + side, reply[0] == 1),
            (6 + side, number > 21 && reply[0] == 3),
            (8, side == 0 && number == 20 && reply[0] == 3),
            (9, side == 1 && number == 20 && reply[0] == 7),
            (10, side == 0 && (1..=16).contains(&number) && is_active(before) && reply[0] == 7),
            (11, side == 0 && is_bad && reply[0] == 7),
            (12, side == 1 && is_behind && reply[0] == 7),
        ]);
    }

    /// A write by one to three bytes.
    fn add_part(&mut self, before: &Record, call: Call, reply: &Reply, part: u32) {
        let (number, value) = (call[1] as u32, call[2] as u32);
        let byte_3 = part & 0xFF != 0;
        let is_scaler = matches!(number, 17 | 18);
        let (scaler, latch) =
            if is_scaler { (before[number as usize], before[LATCH + number as usize - 17]) } else { (0, 0) };
        self.count([
            (0, reply[0] == 4),
            (1, reply[0] == 5),
            (2, reply[0] == 5 && number == 19 && value & part & !0x7F == 0),
            (3, reply[0] == 0 && value & !part & !width(number) != 0),
            (22, reply[0] == 0 && !byte_3 && scaler != 0),
            (23, reply[0] == 0 && byte_3 && latch != 0),
        ]);
        if reply[0] != 0 {
            return;
        }
        self.registers[register(number)] += 1;
        if number == 0 {
            self.add_csr(before, value, part);
        }
    }

    /// A write to the CSR by one to three bytes, carried out.
    fn add_csr(&mut self, before: &Record, value: u32, part: u32) {
        let byte_3 = part & 0xFF != 0;
        let holds = |bit: u32| value & part & bit != 0;
        let reset = holds(csr::RESET) && !holds(csr::INITIALIZE);
        let status = before[0] as u32 & csr::STATUS != 0;
        self.count([
            (13, reset && !byte_3),
            (14, reset && byte_3),
            (15, value & !part & csr::RESET != 0),
            (16, holds(csr::INITIALIZE) && !byte_3),
            (17, holds(csr::INITIALIZE) && byte_3),
            (18, holds(csr::CLEAR_STATUS) && status),
        ]);
        self.add_latched(before, value & part);
    }

    /// RESET and INITIALIZE with something latched.
    fn add_latched(&mut self, before: &Record, value: u32) {
        let initialize = value & csr::INITIALIZE != 0;
        let reset = value & csr::RESET != 0 && !initialize;
        let is_latched = before[LATCH] != 0 || before[LATCH + 1] != 0;
        self.count([(24, reset && is_latched), (25, initialize && is_latched)]);
    }

    /// A read by one to three bytes, carried out.
    fn add_read(&mut self, before: &Record, call: Call, reply: &Reply, after: &Record, part: u32) {
        if matches!(call[1], 17 | 18) {
            let scaler = before[call[1] as usize] as u32;
            let byte_3 = part & 0xFF != 0;
            self.count([(19, !byte_3 && reply[1] as u32 != scaler & part), (20, byte_3 && before != after)]);
        }
    }

    fn add_tick(&mut self, before: &Record, reply: &Reply, after: &Record) {
        let passed = reply[3] & 0xFFF | reply[3] >> 32 | reply[4] & 0xFFF;
        for i in 0..8 {
            let (counter, next) = (before[COUNTERS + i], after[COUNTERS + i]);
            let was_above = self.above[i] == Some(counter);
            let is_above = counter > before[2 + i];
            let falls = counter > 0 && next == counter - 1;
            self.count([(26, is_above && falls), (27, was_above && counter == 0 && passed >> i & 1 == 1)]);
            let stays = next == counter || falls;
            self.above[i] = ((was_above || is_above) && stays).then_some(next);
        }
    }

    fn count<const N: usize>(&mut self, events: [(usize, bool); N]) {
        for (event, is) in events {
            self.events[event] += u64::from(is);
        }
    }
}

/// As source document 001 writes it.
fn name_of((first, count): (u32, u32)) -> String {
    match count {
        1 => format!("BYTE({first})"),
        _ => format!("BYTE({first}-{})", first + count - 1),
    }
}

/// The place of a register among the kinds.
fn register(number: u32) -> usize {
    match number {
        0 | 1 => number as usize,
        2..=5 => 2,
        6..=9 => 3,
        10 | 11 => number as usize - 6,
        12..=15 => 6,
        16 => 7,
        17 | 18 => 8,
        19 => 9,
        _ => 10,
    }
}
