//! What the compared calls met of register 21, TEST, and of ticks that ran in test mode. [Test.1]–[Test.6]

use crate::byte_calls::bits;
use crate::numbers::*;
use reference::machine::{control, csr, test};

const GOOD: [u32; 13] = [0, 2, 3, 4, 5, 7, 8, 9, 10, 11, 12, 13, 14];
const BAD: [u32; 19] = [1, 6, 15, 16, 17, 18, 19, 20, 21, 22, 23, 24, 25, 26, 27, 28, 29, 30, 31];

const TICKS: [&str; 26] = [
    "tick in test mode",
    "tick in test mode with nothing waiting",
    "written pulse stopped",
    "written pulse scaled away",
    "written pulse lost",
    "written pulse rejected",
    "written pulse accepted",
    "written pulse of several inputs, others not enabled",
    "written pulse in strobe mode, outside strobe low",
    "outside trigger blocked in test mode",
    "outside front busy blocked in a tick else ready",
    "outside pass and fail blocked in Wait 2",
    "outside pass and fail blocked in Wait 3",
    "outside inhibit sets no status bit in test mode",
    "written inhibit sets status 16",
    "word finished by a written acknowledge",
    "word finished by outside acknowledges in test mode",
    "outside acknowledges blocked by bit 14",
    "bit 14 without an acknowledge bit",
    "bit 14 with some acknowledge bits",
    "acknowledge bits without bit 14",
    "bit 14 at work with no controller enabled",
    "odd bits waiting in test mode",
    "pulses of several writes together",
    "pulse written with test mode off, on in its tick",
    "control written between a pulse and its tick",
];

const WRITES: [&str; 10] = [
    "TEST written while active",
    "TEST written while inactive",
    "TEST written by a part",
    "TEST written by a part without BYTE(3)",
    "TEST by a part refused 5",
    "TEST by a part with bad bits outside it",
    "control while active in test mode",
    "control while active in test mode, by a part",
    "control while active in test mode, refused 5",
    "other setting in test mode, refused 4",
];

const OTHERS: [&str; 6] = [
    "pulses dropped with test mode off",
    "pulses written in test mode, dropped with it off",
    "read of TEST refused 3",
    "read of TEST by a part refused 3",
    "account: written pulses counted",
    "account: TEST written by a part",
];

pub struct TestCounts {
    /// Each good bit written alone, and in force in a tick in test mode; each bad one refused.
    alone: [u64; GOOD.len()],
    in_force: [u64; GOOD.len()],
    refused: [u64; BAD.len()],
    ticks: [u64; TICKS.len()],
    writes: [u64; WRITES.len()],
    others: [u64; OTHERS.len()],
    /// Since the latest tick that ran: writes of pulses to TEST, whether the first was in test mode, and whether
    /// control was written after it.
    pulses: u32,
    in_test: bool,
    control: bool,
}

impl TestCounts {
    pub fn new() -> TestCounts {
        TestCounts {
            alone: [0; GOOD.len()],
            in_force: [0; GOOD.len()],
            refused: [0; BAD.len()],
            ticks: [0; TICKS.len()],
            writes: [0; WRITES.len()],
            others: [0; OTHERS.len()],
            pulses: 0,
            in_test: false,
            control: false,
        }
    }

    /// A call that both machines answered alike; `kept` says whether an account is kept.
    pub fn add(&mut self, before: &Record, call: Call, reply: &Reply, after: &Record, kept: bool) {
        match call[0] {
            WRITE_REGISTER => self.add_write(before, [call[0], call[1], call[2], packed(0, 4)], reply, kept),
            WRITE_BYTES => self.add_write(before, call, reply, kept),
            READ_REGISTER => self.others[2] += u64::from(call[1] == 21 && reply[0] == 3),
            READ_BYTES => self.others[3] += u64::from(call[1] == 21 && reply[0] == 3),
            TICK if reply[0] == 0 && !is_held(before) => self.add_tick(before, call, reply, after, kept),
            MAKE_FRESH => self.forget(),
            _ => {}
        }
    }

    /// Every name with its count.
    pub fn rows(&self) -> Vec<(String, u64)> {
        let mut rows = Vec::new();
        for (at, bit) in GOOD.iter().enumerate() {
            rows.push((format!("bit {bit} of TEST written alone"), self.alone[at]));
            if *bit != 7 {
                rows.push((format!("bit {bit} of TEST in force in test mode"), self.in_force[at]));
            }
        }
        rows.extend(BAD.iter().zip(self.refused).map(|(bit, count)| (format!("bit {bit} of TEST refused 5"), count)));
        let named = TICKS.iter().zip(&self.ticks).chain(WRITES.iter().zip(&self.writes));
        rows.extend(named.chain(OTHERS.iter().zip(&self.others)).map(|(name, &count)| (name.to_string(), count)));
        rows
    }

    /// Nothing is in hand.
    pub fn forget(&mut self) {
        self.pulses = 0;
    }

    fn add_write(&mut self, before: &Record, call: Call, reply: &Reply, kept: bool) {
        let (number, value, run) = (call[1], call[2] as u32, bits(unpacked(call[3])));
        let (is_part, is_done) = (run != 0 && run != u32::MAX, reply[0] == 0);
        let (in_test, active) = (has(before, csr::TEST_MODE), is_active(before));
        let is_test = number == 21;
        let opened = number == 1 && active && in_test;
        let is = [
            is_test && is_done && active,
            is_test && is_done && !active,
            is_test && is_done && is_part,
            is_test && is_done && is_part && run & 0xFF == 0,
            is_test && is_part && reply[0] == 5,
            is_test && is_done && value & !run & !test::BITS != 0,
            opened && is_done,
            opened && is_done && is_part,
            opened && reply[0] == 5,
            in_test && (2..=16).contains(&number) && reply[0] == 4,
        ];
        count(&mut self.writes, is);
        self.others[5] += u64::from(kept && is_test && is_done && is_part);
        self.control |= number == 1 && is_done;
        if is_test {
            self.add_bits(value & run, reply, in_test);
        }
        if number == 0 && is_done && value & run & (csr::RESET | csr::INITIALIZE) != 0 {
            self.forget();
        }
    }

    /// The bits of a write to TEST.
    fn add_bits(&mut self, value: u32, reply: &Reply, in_test: bool) {
        for (count, bit) in self.alone.iter_mut().zip(GOOD) {
            *count += u64::from(reply[0] == 0 && value == 1 << bit);
        }
        for (count, bit) in self.refused.iter_mut().zip(BAD) {
            *count += u64::from(reply[0] == 5 && value & !test::BITS == 1 << bit);
        }
        if reply[0] == 0 && value & !test::SINGLE_STEP != 0 {
            if self.pulses == 0 {
                (self.in_test, self.control) = (in_test, false);
            }
            self.pulses += 1;
        }
    }

    /// A tick that ran.
    fn add_tick(&mut self, before: &Record, call: Call, reply: &Reply, after: &Record, kept: bool) {
        let waits = before[TEST] as u32;
        if !has(before, csr::TEST_MODE) {
            let dropped = waits & test::BITS & !test::SINGLE_STEP != 0;
            count(&mut self.others[..2], [dropped, dropped && self.pulses > 0 && self.in_test]);
        } else {
            for (count, bit) in self.in_force.iter_mut().zip(GOOD) {
                *count += u64::from(waits >> bit & 1 == 1);
            }
            self.others[4] += u64::from(kept && waits & test::LEVEL_1_PASS != 0);
            let in_hand = [self.pulses > 1, self.pulses > 0 && !self.in_test, self.pulses > 0 && self.control];
            count(&mut self.ticks[..9], pulses(before, call, reply));
            count(&mut self.ticks[9..15], blocked(before, call, after));
            count(&mut self.ticks[15..23], acknowledged(before, call, reply));
            count(&mut self.ticks[23..], in_hand);
        }
        self.forget();
    }
}

fn count<const N: usize>(counts: &mut [u64], is: [bool; N]) {
    assert_eq!(counts.len(), N);
    for (count, is) in counts.iter_mut().zip(is) {
        *count += u64::from(is);
    }
}

/// What became of written pulses.
fn pulses(before: &Record, call: Call, reply: &Reply) -> [bool; 9] {
    let pulse = before[TEST] as u32 & test::LEVEL_1_PASS != 0;
    let enabled = before[1] as u32 >> control::ENABLE_SHIFT & 0xFFF;
    let masks = [reply[2] & 0xFFF, reply[2] >> 32, reply[3] & 0xFFF, reply[3] >> 32, reply[4] & 0xFFF];
    let strobed = before[1] as u32 & control::STROBE_MODE != 0 && call[2] & 1 == 0;
    [
        true,
        before[TEST] == 0,
        masks[0] != 0,
        masks[1] != 0,
        masks[2] != 0,
        masks[3] != 0,
        masks[4] != 0,
        pulse && enabled.count_ones() > 1 && enabled != 0xFFF,
        pulse && strobed && enabled != 0,
    ]
}

/// What was blocked of the outside, and what inhibit did.
fn blocked(before: &Record, call: Call, after: &Record) -> [bool; 6] {
    let waits = before[TEST] as u32;
    let outside = call[2] as u32;
    let written = |bits: u32| waits & bits != 0;
    let enabled = before[1] as u32 >> control::ENABLE_SHIFT & 0xFFF;
    let unset = !has(before, csr::INHIBIT);
    let ready = has(before, csr::GO) && before[STATE] == 0 && before[BLIND] == 0 && written(test::LEVEL_1_PASS);
    [
        call[1] as u32 & enabled != 0 && !written(test::LEVEL_1_PASS),
        ready && outside >> 5 & 1 == 1 && !written(test::FRONT_BUSY),
        before[STATE] == 2 && outside >> 1 & 3 == 3 && !written(test::LEVEL_2_PASS | test::LEVEL_2_FAIL),
        before[STATE] == 3 && outside >> 3 & 3 == 3 && !written(test::LEVEL_3_PASS | test::LEVEL_3_FAIL),
        unset && outside >> 6 & 1 == 1 && !has(after, csr::INHIBIT),
        unset && written(test::INHIBIT) && has(after, csr::INHIBIT),
    ]
}

/// What acknowledges did.
fn acknowledged(before: &Record, call: Call, reply: &Reply) -> [bool; 8] {
    let waits = before[TEST] as u32;
    let written = waits & test::ENABLE_ACKNOWLEDGES != 0;
    let branches = waits >> test::ACKNOWLEDGE_SHIFT & 0xF;
    let enabled = |b: usize| before[10] >> (8 * b) & 0xFF;
    let finished = |b: usize| reply[6] >> (16 * b) & 0x100 != 0 && enabled(b) != 0;
    let high = |b: usize| call[3] >> (8 * b) & enabled(b) == enabled(b) && enabled(b) != 0;
    let at_strobe = |b: usize| before[BRANCH + 3 * b + 2] == 1;
    [
        written && (0..4).any(finished),
        !written && (0..4).any(finished),
        written && (0..4).any(|b| at_strobe(b) && high(b) && !finished(b)),
        written && branches == 0,
        written && branches != 0 && branches != 0xF,
        !written && branches != 0,
        written && (0..4).any(|b| at_strobe(b) && enabled(b) == 0 && branches >> b & 1 == 0),
        waits & !test::BITS != 0,
    ]
}

pub fn has(n: &Record, bits: u32) -> bool {
    n[0] as u32 & bits != 0
}

/// A tick on this record does not run. [Test.7a] [Test.8a]
pub fn is_held(n: &Record) -> bool {
    has(n, csr::HOLD) && n[TEST] as u32 & test::SINGLE_STEP == 0
}

/// A tick that runs, with the triggers and lines that are in force in it; none for a held one. Other calls stay as they
/// are. [Test.2] [Test.3] [Test.7a]
pub fn in_force(n: &Record, call: Call, reply: &Reply) -> Option<Call> {
    if call[0] != TICK || reply[0] != 0 {
        return Some(call);
    }
    if is_held(n) {
        return None;
    }
    if !has(n, csr::TEST_MODE) {
        return Some(call);
    }
    let waits = n[TEST];
    let pulses = if waits & 1 == 1 { n[1] >> 1 & 0xFFF } else { 0 };
    let raised = [(0, 0), (2, 1), (4, 2), (3, 3), (5, 4), (8, 5), (9, 6)];
    let lines = raised.iter().map(|(bit, line)| (waits >> bit & 1) << line).sum();
    Some([call[0], pulses, lines, call[3]])
}
