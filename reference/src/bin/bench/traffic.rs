//! What the loop is fed: inputs of a table, a record to start with, and a memory.

use reference::machine::MEMORY_WORDS;

/// Inputs of the table; the registers 0–21 stand after them, STATE as 0.
pub const INPUTS: usize = 16_384;

pub struct Random(u64);

impl Random {
    pub const fn new(seed: u64) -> Random {
        Random(seed)
    }

    pub fn next(&mut self) -> u64 {
        self.0 ^= self.0 << 13;
        self.0 ^= self.0 >> 7;
        self.0 ^= self.0 << 17;
        self.0.wrapping_mul(0x2545_F491_4F6C_DD1D) >> 16
    }

    fn chance(&mut self, of_1024: u64) -> bool {
        self.next() % 1024 < of_1024
    }
}

/// How often something comes in, in 1,024 ticks.
#[derive(Clone, Copy)]
pub struct Traffic {
    pub name: &'static str,
    pulses: u64,
    passes: u64,
    fails: u64,
    busy: u64,
    /// Acknowledges that change from all high to all low or back.
    turns: u64,
}

/// Pulses in one tick of 256, in one of 32, and in seven of eight.
pub const QUIET: Traffic = Traffic { name: "quiet", pulses: 4, passes: 512, fails: 20, busy: 10, turns: 512 };
pub const IDLE: Traffic = Traffic { name: "idle-heavy", pulses: 32, passes: 512, fails: 20, busy: 10, turns: 512 };
pub const BUSY: Traffic = Traffic { name: "busy-heavy", pulses: 896, passes: 512, fails: 60, busy: 60, turns: 512 };
pub const KINDS: [Traffic; 3] = [QUIET, IDLE, BUSY];

pub fn memory() -> Vec<u16> {
    let mut random = Random(0x1234_5678_9ABC_DEF1);
    // Nine of ten words are OK, the classes by turns.
    (0..MEMORY_WORDS as u64)
        .map(|_| {
            let any = random.next() as u16 & 0xFFF0;
            if random.chance(102) {
                any
            } else {
                any | [0x3, 0x5, 0x9][random.next() as usize % 3]
            }
        })
        .collect()
}

pub fn table(traffic: Traffic) -> Vec<u64> {
    let mut random = Random(0xFEDC_BA98_7654_3211);
    let mut high = false;
    let mut table: Vec<u64> = (0..INPUTS)
        .map(|_| {
            let triggers = if random.chance(traffic.pulses) { random.next() & random.next() & 0xFFF } else { 0 };
            let mut lines = 1;
            for (bit, of) in
                [(1, traffic.passes), (2, traffic.fails), (3, traffic.passes), (4, traffic.fails), (5, traffic.busy)]
            {
                lines |= u64::from(random.chance(of)) << bit;
            }
            high ^= random.chance(traffic.turns);
            let acknowledges: u64 = if high { 0xFFFF_FFFF } else { 0 };
            triggers | lines << 12 | acknowledges << 32
        })
        .collect();
    table.extend(SETTINGS);
    table
}

/// GO, sync enabled, T1, T4 and T5 in use; all inputs enabled; four small factors; one controller on each branch; a sync
/// event in 50; all five timers; scaler 1 counts accepted patterns.
const SETTINGS: [u64; 22] = [0x1D1, 0x1FFE, 1, 1, 0, 0, 1, 1, 0, 0, 0x0101_0101, 50, 6, 2, 3, 4, 2, 0, 0, 0x0E, 0, 0];

/// Busy-heavy traffic, with a pulse on each of so many inputs at every tick.
pub fn pulsing(inputs: usize) -> Vec<u64> {
    let mut table = table(BUSY);
    for input in &mut table[..INPUTS] {
        *input = *input & !0xFFF | (1 << inputs) - 1;
    }
    table
}

/// Which timers are in use: the CSR, and T1–T5.
#[derive(Clone, Copy)]
pub struct Timers {
    pub name: &'static str,
    csr: u64,
    values: [u64; 5],
}

pub const TIMERS: [Timers; 6] = [
    Timers { name: "none", csr: 0x011, values: [0, 0, 0, 0, 0] },
    Timers { name: "T1", csr: 0x051, values: [6, 0, 0, 0, 0] },
    Timers { name: "T2 and T3", csr: 0x011, values: [0, 2, 3, 0, 0] },
    Timers { name: "T4", csr: 0x091, values: [0, 0, 0, 4, 0] },
    Timers { name: "T5", csr: 0x111, values: [0, 0, 0, 0, 2] },
    Timers { name: "all five", csr: 0x1D1, values: [6, 2, 3, 4, 2] },
];

/// Busy-heavy traffic, with these timers.
pub fn timed(timers: Timers) -> Vec<u64> {
    let mut table = table(BUSY);
    table[INPUTS] = timers.csr;
    table[INPUTS + 12..INPUTS + 17].copy_from_slice(&timers.values);
    table
}

/// Every tick has a pulse on all inputs and both passes, and the acknowledges turn: main moves at every tick from one
/// class 3 event to the next, and the branches with it. No factor, no timer; a sync event in four.
pub fn moving() -> Vec<u64> {
    let mut table: Vec<u64> = (0..INPUTS as u64).map(|i| 0xFFF | 0x0B << 12 | (0xFFFF_FFFF * (i % 2)) << 32).collect();
    table.extend([0x011, 0x1FFE, 0, 0, 0, 0, 0, 0, 0, 0, 0x0101_0101, 4, 0, 0, 0, 0, 0, 0, 0, 0x0E, 0, 0]);
    table
}

/// Class 3 for every pattern.
pub fn moving_memory() -> Vec<u16> {
    vec![0x0159; MEMORY_WORDS]
}

/// Events in the first ticks, as many as words are to be held, and then nothing; no acknowledge comes.
pub fn holding(words: usize) -> Vec<u64> {
    let mut table = vec![0; INPUTS];
    for event in 0..words {
        table[event * 16] = 1;
    }
    table.extend([1, 0x1FFE, 0, 0, 0, 0, 0, 0, 0, 0, 0x0101_0101, 0, 0, 0, 0, 0, 0, 0, 0, 0, 0, 0]);
    table
}
