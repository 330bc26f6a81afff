//! What the compared calls met of the held clock, the single step and the modes in the CSR. [Test.7a]–[Test.10]

use crate::byte_calls::bits;
use crate::numbers::*;
use crate::test_counts::{has, is_held};
use reference::machine::{control, csr, test, Supervisor};

const HELD: [&str; 17] = [
    "held tick",
    "held tick without GO stops pulses",
    "held tick with GO stops pulses",
    "held tick stops pulses under OPEN PRESCALES",
    "held tick stops a pulse that the prescaler would scale away",
    "held tick in strobe mode, strobe low, with triggers",
    "held tick in test mode",
    "held tick in test mode with triggers",
    "held tick in test mode, a written pulse waits",
    "held tick with a word shown",
    "held tick with lines up",
    "held tick with the clear line up",
    "held tick with inhibit, status 16 clear",
    "held tick while blind",
    "held tick with other lines than kept",
    "held tick with odd bits waiting",
    "account: held tick with pulses stopped",
];

const RUNS: [&str; 9] = [
    "stepped tick",
    "stepped tick in test mode",
    "stepped tick in a cycle",
    "stepped tick with pulses dropped",
    "stepped tick after several steps written",
    "stepped tick after hold went off and on",
    "step used up by a tick without hold",
    "account: stepped tick",
    "account: stepped tick with a written pulse",
];

const CALLS: [&str; 8] = [
    "held tick declined 2",
    "held tick declined 5",
    "tick declined 2 keeps the step",
    "tick declined 5 keeps the step",
    "step written without hold",
    "step written without hold, then held",
    "STATE read under hold",
    "STATE read under hold, READY",
];

const CSR: [&str; 26] = [
    "hold set",
    "hold cleared",
    "test mode set",
    "test mode cleared",
    "a mode set and cleared at once",
    "modes written by a part",
    "bit 30 refused",
    "bit 30 with a mode refused",
    "RESET with a step waiting",
    "RESET with pulses waiting",
    "RESET under hold that stays",
    "RESET in test mode that stays",
    "RESET with bit 12",
    "RESET with bit 13",
    "RESET with bit 28",
    "RESET with bit 29",
    "INITIALIZE with a step waiting",
    "INITIALIZE with pulses waiting",
    "INITIALIZE under hold",
    "INITIALIZE in test mode",
    "INITIALIZE with a mode in its write",
    "account: modes written by a part",
    "account: mode in a declined write",
    "account: RESET with a step waiting, held after it",
    "account: RESET with a pulse waiting in test mode",
    "account: INITIALIZE with something waiting",
];

pub struct HeldCounts {
    held: [u64; HELD.len()],
    runs: [u64; RUNS.len()],
    calls: [u64; CALLS.len()],
    csr: [u64; CSR.len()],
    /// Since the latest tick that ran: steps written under hold, and without; whether hold went off after one.
    steps: u32,
    idle_steps: u32,
    went_off: bool,
}

impl HeldCounts {
    pub fn new() -> HeldCounts {
        HeldCounts {
            held: [0; HELD.len()],
            runs: [0; RUNS.len()],
            calls: [0; CALLS.len()],
            csr: [0; CSR.len()],
            steps: 0,
            idle_steps: 0,
            went_off: false,
        }
    }

    /// A call that both machines answered alike; `kept` says whether an account is kept.
    pub fn add(&mut self, before: &Record, call: Call, reply: &Reply, after: &Record, kept: bool) {
        let is_state = call[1] == u64::from(Supervisor::STATE) && reply[0] == 0;
        match call[0] {
            WRITE_REGISTER => self.add_write(before, [call[0], call[1], call[2], packed(0, 4)], reply, after, kept),
            WRITE_BYTES => self.add_write(before, call, reply, after, kept),
            READ_REGISTER if is_state && has(before, csr::HOLD) => {
                self.calls[6] += 1;
                self.calls[7] += reply[1] >> 15 & 1;
            }
            TICK => self.add_tick(before, call, reply, kept),
            MAKE_FRESH => self.forget(),
            _ => {}
        }
    }

    /// Every name with its count.
    pub fn rows(&self) -> Vec<(String, u64)> {
        let held = HELD.iter().zip(&self.held).chain(RUNS.iter().zip(&self.runs));
        let calls = CALLS.iter().zip(&self.calls).chain(CSR.iter().zip(&self.csr));
        held.chain(calls).map(|(name, &count)| (name.to_string(), count)).collect()
    }

    /// Nothing is in hand.
    pub fn forget(&mut self) {
        (self.steps, self.idle_steps, self.went_off) = (0, 0, false);
    }

    fn add_tick(&mut self, before: &Record, call: Call, reply: &Reply, kept: bool) {
        let step = before[TEST] as u32 & test::SINGLE_STEP != 0;
        match reply[0] {
            0 if is_held(before) => {
                self.calls[5] += u64::from(self.idle_steps > 0);
                count(&mut self.held, held(before, call, reply, kept));
            }
            0 => self.add_run(before, step, kept),
            decline => {
                let (two, five) = (decline == 2, decline == 5);
                let is_held = is_held(before);
                count(&mut self.calls[..4], [is_held && two, is_held && five, step && two, step && five]);
            }
        }
    }

    /// A tick that ran.
    fn add_run(&mut self, before: &Record, step: bool, kept: bool) {
        let waits = before[TEST] as u32;
        let (hold, in_test) = (has(before, csr::HOLD), has(before, csr::TEST_MODE));
        let is = [
            hold,
            hold && in_test,
            hold && before[STATE] != 0,
            hold && !in_test && waits & test::BITS & !test::SINGLE_STEP != 0,
            hold && self.steps > 1,
            hold && self.steps > 0 && self.went_off,
            !hold && step,
            hold && kept,
            hold && kept && in_test && waits & test::LEVEL_1_PASS != 0,
        ];
        count(&mut self.runs, is);
        self.forget();
    }

    fn add_write(&mut self, before: &Record, call: Call, reply: &Reply, after: &Record, kept: bool) {
        let run = bits(unpacked(call[3]));
        let value = call[2] as u32 & run;
        match call[1] {
            0 => {
                count(&mut self.csr[..8], modes(before, value, run, reply, after));
                count(&mut self.csr[8..21], wipes(before, value, reply));
                count(&mut self.csr[21..], accounts(before, value, run, reply).map(|is| is && kept));
                self.went_off |= has(before, csr::HOLD) && !has(after, csr::HOLD) && after[TEST] & 0x80 != 0;
                if reply[0] == 0 && value & (csr::RESET | csr::INITIALIZE) != 0 {
                    self.forget();
                }
            }
            21 if reply[0] == 0 && value & test::SINGLE_STEP != 0 => {
                let hold = has(before, csr::HOLD);
                self.calls[4] += u64::from(!hold);
                self.steps += u32::from(hold);
                self.idle_steps += u32::from(!hold);
            }
            _ => {}
        }
    }
}

fn count<const N: usize>(counts: &mut [u64], is: [bool; N]) {
    assert_eq!(counts.len(), N);
    for (count, is) in counts.iter_mut().zip(is) {
        *count += u64::from(is);
    }
}

fn held(n: &Record, call: Call, reply: &Reply, kept: bool) -> [bool; 17] {
    let stopped = reply[2] & 0xFFF;
    let lines = reply[4] >> 32;
    let in_test = has(n, csr::TEST_MODE);
    let scaled = (0..8).any(|i| stopped >> i & 1 == 1 && n[COUNTERS + i] > 0);
    let control = n[1] as u32;
    [
        true,
        stopped != 0 && !has(n, csr::GO),
        stopped != 0 && has(n, csr::GO),
        stopped != 0 && control & control::OPEN_PRESCALES != 0,
        scaled,
        !in_test && control & 1 == 1 && call[2] & 1 == 0 && call[1] & n[1] >> 1 != 0,
        in_test,
        in_test && call[1] & n[1] >> 1 != 0,
        in_test && n[TEST] & 1 == 1,
        reply[7] != 0,
        lines & 0x1F != 0,
        lines & 0x20 != 0,
        call[2] >> 6 & 1 == 1 && !has(n, csr::INHIBIT),
        n[BLIND] > 0,
        call[2] != n[KEPT_LINES],
        n[TEST] as u32 & !test::BITS != 0,
        kept && stopped != 0,
    ]
}

/// Modes set and cleared.
fn modes(before: &Record, value: u32, run: u32, reply: &Reply, after: &Record) -> [bool; 8] {
    let rises = |bits: u32| !has(before, bits) && has(after, bits);
    let is_part = run != 0 && run != u32::MAX;
    let both = value & value >> csr::CLEAR_SHIFT & csr::MODES != 0;
    let is_done = reply[0] == 0;
    let refused = reply[0] == 5 && value >> 30 & 1 == 1;
    [
        is_done && rises(csr::HOLD),
        is_done && has(before, csr::HOLD) && !has(after, csr::HOLD),
        is_done && rises(csr::TEST_MODE),
        is_done && has(before, csr::TEST_MODE) && !has(after, csr::TEST_MODE),
        is_done && both,
        is_done && is_part && (rises(csr::HOLD) || rises(csr::TEST_MODE)),
        refused,
        refused && value & (csr::MODES | csr::MODES << csr::CLEAR_SHIFT) != 0,
    ]
}

/// RESET and INITIALIZE with the modes and with something waiting.
fn wipes(before: &Record, value: u32, reply: &Reply) -> [bool; 13] {
    let initialize = reply[0] == 0 && value & csr::INITIALIZE != 0;
    let reset = reply[0] == 0 && value & csr::RESET != 0 && !initialize;
    let step = before[TEST] as u32 & test::SINGLE_STEP != 0;
    let pulses = before[TEST] as u32 & test::BITS & !test::SINGLE_STEP != 0;
    let stays = |bit: u32| has(before, bit) && value & bit << csr::CLEAR_SHIFT == 0;
    [
        reset && step,
        reset && pulses,
        reset && stays(csr::HOLD),
        reset && stays(csr::TEST_MODE),
        reset && value & csr::HOLD != 0,
        reset && value & csr::TEST_MODE != 0,
        reset && value & csr::HOLD << csr::CLEAR_SHIFT != 0,
        reset && value & csr::TEST_MODE << csr::CLEAR_SHIFT != 0,
        initialize && step,
        initialize && pulses,
        initialize && has(before, csr::HOLD),
        initialize && has(before, csr::TEST_MODE),
        initialize && value & csr::MODES != 0,
    ]
}

/// The same where an account is kept.
fn accounts(before: &Record, value: u32, run: u32, reply: &Reply) -> [bool; 5] {
    let both = csr::MODES | csr::MODES << csr::CLEAR_SHIFT;
    let initialize = value & csr::INITIALIZE != 0;
    let reset = reply[0] == 0 && value & csr::RESET != 0 && !initialize;
    let stays = |bit: u32| has(before, bit) && value & bit << csr::CLEAR_SHIFT == 0;
    [
        reply[0] == 0 && run != 0 && run != u32::MAX && value & both != 0,
        reply[0] == 5 && value & both != 0,
        reset && before[TEST] & 0x80 != 0 && stays(csr::HOLD),
        reset && before[TEST] & 1 != 0 && stays(csr::TEST_MODE),
        reply[0] == 0 && initialize && before[TEST] & 0x81 != 0,
    ]
}
