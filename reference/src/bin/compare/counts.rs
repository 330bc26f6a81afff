//! What the compared calls met: every state, decline, outcome, assignment and clause of the spoiled rule, the blind
//! time, STATE, byte-wise access, test mode and the held clock, pairs of writes, and the generator.

use crate::blind_counts::{self, BlindCounts};
use crate::byte_counts::ByteCounts;
use crate::clauses::{broken_clauses, CLAUSES};
use crate::held_counts::HeldCounts;
use crate::numbers::*;
use crate::order_counts::OrderCounts;
use crate::owed_counts::OwedCounts;
use crate::state_counts::StateCounts;
use crate::table_counts::TableCounts;
use crate::test_counts::{in_force, TestCounts};
use reference::machine::csr;

pub const STATES: [&str; 8] = ["Idle", "Delay", "Wait 2", "Wait 3", "Front", "Space", "Sync hold", "Clear"];
/// From and to, by number.
#[rustfmt::skip]
const MOVES: [(usize, usize); 14] = [
    (0, 1), (0, 2), (1, 4), (2, 1), (2, 3), (2, 4), (2, 7), (3, 4), (3, 7), (4, 5), (4, 6), (5, 0), (6, 0), (7, 0),
];
const PHASES: [&str; 3] = ["Rest", "Strobe", "Drop"];
const OUTCOMES: [&str; 7] = ["none", "cleared", "event", "event, sync", "event, late", "event, sync and late", "tag"];
const MASKS: [&str; 5] = ["stopped", "scaled", "lost", "rejected", "accepted"];
const ASSIGNS: [&str; 20] = [
    "00", "01", "02", "03", "04", "05", "06", "07", "08", "09", "0A", "0B", "0C", "0D", "0E", "0F", "1x", "2x", "3x",
    "5x",
];
const EVENTS: [&str; 15] = [
    "RESET carried out",
    "INITIALIZE carried out",
    "GO rises in a write",
    "status bits cleared by bit 31",
    "late fail of level 2",
    "late fail of level 3",
    "fail and pass together",
    "Sync hold ends with a pause",
    "user sync ends with a pause",
    "user sync ends without a pause",
    "tick at full depth in Space",
    "tick under a ROC lock in Space",
    "tick at the age limit",
    "scaler runs on to 0",
    "write to 17-19 while active",
];

pub struct Counts {
    pub calls: u64,
    pub lists: u64,
    pub accounts: u64,
    pub whole: u64,
    replies: [[u64; 9]; KINDS.len()],
    moves: [[u64; 8]; 8],
    user_waits: u64,
    outcomes: [u64; 7],
    masks: [u64; 5],
    assigns: [[u64; 2]; 20],
    phases: [u64; 3],
    held: [u64; 9],
    events: [u64; 15],
    resets: [[u64; 9]; 2],
    blind: BlindCounts,
    state: StateCounts,
    bytes: ByteCounts,
    pub owed: OwedCounts,
    tests: TestCounts,
    holds: HeldCounts,
    pub orders: OrderCounts,
    pub table: TableCounts,
    clauses: [[u64; 2]; CLAUSES.len()],
}

impl Counts {
    pub fn new() -> Counts {
        Counts {
            calls: 0,
            lists: 0,
            accounts: 0,
            whole: 0,
            replies: [[0; 9]; KINDS.len()],
            moves: [[0; 8]; 8],
            user_waits: 0,
            outcomes: [0; 7],
            masks: [0; 5],
            assigns: [[0; 2]; 20],
            phases: [0; 3],
            held: [0; 9],
            events: [0; 15],
            resets: [[0; 9]; 2],
            blind: BlindCounts::new(),
            state: StateCounts::new(),
            bytes: ByteCounts::new(),
            owed: OwedCounts::new(),
            tests: TestCounts::new(),
            holds: HeldCounts::new(),
            orders: OrderCounts::new(),
            table: TableCounts::new(),
            clauses: [[0; 2]; CLAUSES.len()],
        }
    }

    /// A call that both machines answered alike; `kept` says whether an account is kept.
    pub fn add(&mut self, before: &Record, call: Call, reply: &Reply, after: &Record, kept: bool) {
        self.calls += 1;
        self.accounts += u64::from(kept);
        self.replies[call[0] as usize][reply[0] as usize] += 1;
        self.tests.add(before, call, reply, after, kept);
        self.holds.add(before, call, reply, after, kept);
        // The rest is about ticks that run, with what is in force in them.
        let Some(call) = in_force(before, call, reply) else { return };
        self.blind.add(before, call, reply, after);
        self.state.add(before, call, reply, after);
        self.bytes.add(before, call, reply, after);
        if reply[0] == 1 {
            let broken = broken_clauses(before);
            let together = usize::from(broken.iter().filter(|&&is| is).count() > 1);
            for (count, is) in self.clauses.iter_mut().zip(broken) {
                count[together] += u64::from(is);
            }
        }
        if reply[0] != 0 {
            return;
        }
        match call[0] {
            WRITE_REGISTER => self.add_write(before, call, after),
            TICK => self.add_tick(before, call, reply, after),
            _ => {}
        }
    }

    /// The record that comes next is another: nothing is in hand for it.
    pub fn forget(&mut self) {
        self.tests.forget();
        self.holds.forget();
    }

    fn add_write(&mut self, before: &Record, call: Call, after: &Record) {
        let value = call[2] as u32;
        let place = if before[WAITING] == 1 { 8 } else { before[STATE] as usize };
        if (17..=19).contains(&call[1]) && is_active(before) {
            self.events[14] += 1;
        }
        if call[1] != 0 {
            return;
        }
        if value & csr::INITIALIZE != 0 {
            self.events[1] += 1;
            self.resets[1][place] += 1;
            return;
        }
        if value & csr::RESET != 0 {
            self.events[0] += 1;
            self.resets[0][place] += 1;
        }
        self.events[2] += u64::from(after[0] & !before[0] & 1 != 0);
        let status = u64::from(csr::STATUS);
        self.events[3] += u64::from(value & csr::CLEAR_STATUS != 0 && before[0] & status != 0);
    }

    fn add_tick(&mut self, before: &Record, call: Call, reply: &Reply, after: &Record) {
        let state = before[STATE] as usize;
        self.moves[state][after[STATE] as usize] += 1;
        self.user_waits += before[WAITING];
        let outcome = match reply[5] >> 8 {
            2 => 2 + (reply[5] >> 4 & 3) as usize,
            3 => 6,
            other => other as usize,
        };
        self.outcomes[outcome] += 1;
        let masks = [reply[2] & 0xFFF, reply[2] >> 32, reply[3] & 0xFFF, reply[3] >> 32, reply[4] & 0xFFF];
        for (count, mask) in self.masks.iter_mut().zip(masks) {
            *count += u64::from(mask.count_ones());
        }
        let assign = match before[19] {
            code @ 0..=0x0F => code as usize,
            code @ 0x10..=0x3F => 15 + (code >> 4) as usize,
            _ => 19,
        };
        let counted = usize::from(before[18] != after[18]);
        self.assigns[assign][counted] += 1;
        for b in 0..4 {
            self.phases[after[BRANCH + 3 * b + 2] as usize] += 1;
            self.held[after[BRANCH + 3 * b + 1] as usize] += 1;
        }
        let line = |bit: u32| call[2] >> bit & 1 == 1;
        let dropped = |bits: u32| (before[0] & !after[0]) as u32 & bits == bits;
        let late = after[LATE] > before[LATE];
        let used = |b: usize| before[BRANCH + 3 * b + 1];
        let locks = u64::from(csr::ROC_LOCK | csr::ROC_LOCK_BRANCH_4);
        let is = [
            (4, state == 2 && late),
            (5, state == 3 && late),
            (6, (state == 2 && line(1) && line(2)) || (state == 3 && line(3) && line(4))),
            (7, state == 6 && dropped(csr::GO | csr::PAUSE_ON_NEXT_SYNC)),
            (8, before[WAITING] == 1 && dropped(csr::GO | csr::PAUSE_AND_SYNC)),
            (9, before[WAITING] == 1 && after[WAITING] == 0 && !dropped(csr::PAUSE_AND_SYNC)),
            (10, state == 5 && (0..4).any(|b| used(b) == 8)),
            (11, state == 5 && before[0] & locks != 0 && (0..4).any(|b| used(b) > 0)),
            (12, before[AGE] == 131_070 && after[AGE] == 131_070),
            (13, (before[17] > after[17]) || (before[18] > after[18])),
        ];
        for (event, is) in is {
            self.events[event] += u64::from(is);
        }
    }

    /// Prints the table; gives what was never met.
    pub fn print(&self) -> Vec<String> {
        let mut missing = Vec::new();
        let mut row = |what: String, count: u64| {
            if count == 0 {
                missing.push(what.clone());
            }
            println!("  {what:<58} {count:>12}");
        };
        println!("Replies");
        for (kind, name) in KINDS.iter().enumerate() {
            for decline in 0..9 {
                let listed = match kind as u64 {
                    WRITE_REGISTER => [0, 1, 3, 4, 5].contains(&decline),
                    READ_REGISTER => [0, 1, 3].contains(&decline),
                    WRITE_MEMORY | READ_MEMORY => decline < 5,
                    TICK => [0, 1, 2, 5].contains(&decline),
                    WRITE_BYTES => [0, 1, 3, 4, 5, 7].contains(&decline),
                    READ_BYTES => [0, 1, 3, 7].contains(&decline),
                    FILL_MEMORY => [0, 1, 2, 4, 8].contains(&decline),
                    _ => decline == 0,
                };
                if listed {
                    let what = if decline == 0 { "carried out".into() } else { format!("declined {decline}") };
                    row(format!("{name}, {what}"), self.replies[kind][decline]);
                }
            }
        }
        println!("Main's states, in ticks carried out");
        for (state, name) in STATES.iter().enumerate() {
            row((*name).into(), self.moves[state].iter().sum());
        }
        row("user sync waiting".into(), self.user_waits);
        println!("Main's moves");
        for (from, to) in MOVES {
            row(format!("{} to {}", STATES[from], STATES[to]), self.moves[from][to]);
        }
        println!("Outcomes");
        for (name, count) in OUTCOMES.iter().zip(self.outcomes) {
            row((*name).into(), count);
        }
        println!("Pulses, by mask");
        for (name, count) in MASKS.iter().zip(self.masks) {
            row((*name).into(), count);
        }
        println!("Scaler 1, ticks that it counted, by assignment");
        for (name, count) in ASSIGNS.iter().zip(self.assigns) {
            row(format!("assign {name}"), count[1]);
            row(format!("assign {name}, not counted"), count[0]);
        }
        println!("Branches after a tick");
        for (name, count) in PHASES.iter().zip(self.phases) {
            row((*name).into(), count);
        }
        for (held, count) in self.held.iter().enumerate() {
            row(format!("{held} words held"), *count);
        }
        println!("Events");
        for (name, count) in EVENTS.iter().zip(self.events) {
            row((*name).into(), count);
        }
        for (name, counts) in ["RESET", "INITIALIZE"].iter().zip(self.resets) {
            for (state, count) in STATES.iter().chain(&["a user sync's wait"]).zip(counts) {
                row(format!("{name} in {state}"), count);
            }
        }
        println!("The blind time after a rejected pattern");
        for (name, count) in blind_counts::EVENTS.iter().zip(self.blind.events) {
            row((*name).into(), count);
        }
        for (title, rows) in [
            ("Reads of STATE", self.state.rows()),
            ("Byte-wise access", [self.bytes.rows(), self.owed.rows()].concat()),
            ("Test mode and the held clock", [self.tests.rows(), self.holds.rows()].concat()),
            ("Two writes in both orders", self.orders.rows()),
            ("The generator", self.table.rows()),
        ] {
            println!("{title}");
            rows.into_iter().for_each(|(name, count)| row(name, count));
        }
        println!("Clauses of the spoiled rule");
        for (name, count) in CLAUSES.iter().zip(self.clauses) {
            row(format!("{name}, alone"), count[0]);
            row(format!("{name}, with others"), count[1]);
        }
        missing
    }
}
