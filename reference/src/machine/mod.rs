//! The supervisor's record and its calls.
//!
//! The record is changed in place. What a tick tests is the record at its start [Tick.2], so the moves stand in an order
//! in which none changes what a later one tests, but for the CSR and main's state, of which the tick takes copies.

mod branch;
mod bytes;
mod cycle;
mod memory;
mod names;
mod pulses;
mod registers;
mod spoiled;
mod state;
mod table;
mod test_mode;
mod tick;

pub use branch::{Branch, BranchState};
pub use names::*;
pub use tick::{Answer, Outcome};

/// A timer's count of 40 ns: two ticks each. [Widths.2] [Widths.3]
#[derive(Clone, Copy, Debug, PartialEq, Eq, Hash)]
pub struct Count40(pub u32);

impl Count40 {
    /// At most 131,070 in a record that is not spoiled.
    #[inline]
    const fn ticks(self) -> u32 {
        self.0 << 1
    }
}

/// A timer's count of 20 ns: one tick each. [Widths.2] [Widths.3]
#[derive(Clone, Copy, Debug, PartialEq, Eq, Hash)]
pub struct Count20(pub u32);

impl Count20 {
    #[inline]
    const fn ticks(self) -> u32 {
        self.0
    }
}

/// Where the main sequencer stands. [Main.2]–[Main.15]
#[derive(Clone, Copy, Debug, PartialEq, Eq, Hash)]
pub enum MainState {
    Idle,
    Delay,
    Wait2,
    Wait3,
    Front,
    Space,
    SyncHold,
    Clear,
}

/// The whole record.
///
/// Every field is open, and wide enough that each clause of the spoiled rule can be broken by changing a field, but
/// for these, whose type leaves nothing to break:
/// - `roc_enable` and `scalers`: all 32-bit values are taken by their writes [Registers.1] [Registers.3];
/// - `latches`: each holds what a scaler once did [Bytes.5a];
/// - the states of main and branches: enums, so only the listed states exist;
/// - `accept_pattern`: all eight bits are in use [Memory.2];
/// - `raised`: no clause speaks of it, and bits that are no line of main's show nowhere;
/// - `late` and `user_sync_waiting`: plain yes or no, with no clause about them alone;
/// - `kept_lines`, `latched` and `kept_acknowledges`: no clause speaks of them, odd lines included [State.3];
/// - `test`: no clause speaks of it, odd bits included [Open: T9].
///
/// Numbers that the spoiled rule tests together stand together.
#[derive(Clone, Debug, PartialEq, Eq, Hash)]
pub struct Supervisor {
    pub factors: [u32; 8],
    /// What each prescaler still has to count down, above its factor after some writes without BYTE(3). Reads give the
    /// factor, not this. [Declines.3b] [Bytes.4a]
    pub counters: [u32; 8],
    pub csr: u32,
    pub control: u32,
    pub sync_interval: u32,
    pub t5: Count20,
    pub t1: Count40,
    pub t2: Count40,
    pub t3: Count40,
    pub t4: Count40,
    pub sync_count: u32,
    pub age: u32,
    /// Document 01's c: ticks for which the clear line stays high.
    pub clear_count: u32,
    /// Ticks to come that are not ready after a rejected pattern. [Blind.2] [Blind.3]
    pub blind: u32,
    pub assign: u32,
    pub roc_enable: u32,
    pub scalers: [u32; 2],
    /// What each scaler held when it was last read with BYTE(3). [Bytes.5a] [Bytes.5b]
    pub latches: [u32; 2],

    pub main: MainState,
    pub class: u8,
    pub code: u8,
    pub accept_pattern: u8,
    pub late: bool,
    /// The lines that main raised, see [`raised`].
    pub raised: u8,
    pub user_sync_waiting: bool,

    /// The lines in force in the latest tick that ran, for STATE. [State.3] [Test.7b]
    pub kept_lines: u32,
    /// Whether that tick latched a pattern, rejected or accepted. [State.3] [State.7]
    pub latched: bool,
    /// The acknowledges in force in that tick, enabled or not. [State.3]
    pub kept_acknowledges: u32,
    /// What waits: the TEST bits written since that tick, with the single step as bit 7. [Test.6] [Test.8a]
    pub test: u32,
    pub branches: [Branch; BRANCHES],
}

impl Supervisor {
    pub const CSR: u32 = 0;
    pub const CONTROL: u32 = 1;
    /// The factor of input 1; that of input i is `FACTOR_1 + i − 1`.
    pub const FACTOR_1: u32 = 2;
    pub const FACTOR_8: u32 = 9;
    pub const ROC_ENABLE: u32 = 10;
    pub const SYNC_INTERVAL: u32 = 11;
    pub const T1: u32 = 12;
    pub const T2: u32 = 13;
    pub const T3: u32 = 14;
    pub const T4: u32 = 15;
    pub const T5: u32 = 16;
    pub const SCALER_0: u32 = 17;
    pub const SCALER_1: u32 = 18;
    pub const ASSIGN: u32 = 19;
    /// Read only. [State.8a] [State.8b]
    pub const STATE: u32 = 20;
    /// Written only. [Test.1] [Test.5b]
    pub const TEST: u32 = 21;

    /// Largest factor of inputs 1–4 and of inputs 5–8. [Widths.1]
    pub const WIDE_FACTOR: u32 = 0xF_FFFF;
    pub const NARROW_FACTOR: u32 = 0x3FFF;
    /// Words that a branch holds before Space lets no event past it. [Main.13]
    pub const DEPTH: u8 = 8;
    /// The same under a ROC lock. [Main.13]
    pub const LOCKED_DEPTH: u8 = 1;
    /// Where age stops. [Main.1]
    pub const AGE_LIMIT: u32 = 131_070;
    /// Largest sync count. [Spoiled.1h]
    pub const SYNC_COUNT_LIMIT: u32 = 65_534;
    /// Largest c. [Spoiled.1j]
    pub const CLEAR_COUNT_LIMIT: u32 = 255;
    /// Ticks that are not ready after a rejected pattern, and so the largest blind count. [Blind.2] [Blind.3]
    pub const BLIND_TICKS: u32 = 2;

    /// The record of power-up: all zero, all idle. [Registers.4] [Declines.6]
    pub const fn fresh() -> Self {
        Supervisor {
            factors: [0; 8],
            counters: [0; 8],
            csr: 0,
            control: 0,
            sync_interval: 0,
            t5: Count20(0),
            t1: Count40(0),
            t2: Count40(0),
            t3: Count40(0),
            t4: Count40(0),
            sync_count: 0,
            age: 0,
            clear_count: 0,
            blind: 0,
            assign: 0,
            roc_enable: 0,
            scalers: [0; 2],
            latches: [0; 2],
            main: MainState::Idle,
            class: 0,
            code: 0,
            accept_pattern: 0,
            late: false,
            raised: 0,
            user_sync_waiting: false,
            kept_lines: 0,
            latched: false,
            kept_acknowledges: 0,
            test: 0,
            branches: [Branch::fresh(), Branch::fresh(), Branch::fresh(), Branch::fresh()],
        }
    }

    /// [Active.1]; blind count, modes and what waits are no part of it. [Open: T8] [Open: T9]
    #[inline]
    pub fn is_active(&self) -> bool {
        self.csr & csr::GO != 0
            || self.main != MainState::Idle
            || self.user_sync_waiting
            || sync_wanted(self.csr)
            || !self.all_quiet()
    }

    /// Every branch at Rest without a word. [Active.1]
    #[inline]
    fn all_quiet(&self) -> bool {
        self.branches.iter().fold(true, |all, branch| all & branch.is_quiet())
    }

    /// No branch holds a word. [Main.14] [Usersync.2]
    #[inline]
    fn all_empty(&self) -> bool {
        self.branches.iter().fold(0, |any, branch| any | branch.used) == 0
    }

    /// Whether a branch has room for one more event, under the lock bits of this CSR. [Main.13]
    #[inline]
    fn is_below_depth(&self, csr: u32, branch: usize) -> bool {
        let locked = csr & csr::ROC_LOCK != 0 || (branch == BRANCHES - 1 && csr & csr::ROC_LOCK_BRANCH_4 != 0);
        self.branches[branch].used < if locked { Self::LOCKED_DEPTH } else { Self::DEPTH }
    }
}

/// The ready rule, which the tick makes at its start and STATE at the read. [Ready.1] [Blind.2] [State.4a]
#[inline]
fn is_ready(csr: u32, main: MainState, waiting: bool, blind: bool, lines: u32) -> bool {
    csr & csr::GO != 0
        && main == MainState::Idle
        && !waiting
        && !sync_wanted(csr)
        && !blind
        && lines & line::FRONT_BUSY == 0
        && (lines & line::INHIBIT == 0 || csr & csr::OVERRIDE_INHIBIT != 0)
}

/// A user sync is wanted: bit 2 or 3, with bit 4. [Ready.1]
#[inline]
const fn sync_wanted(csr: u32) -> bool {
    csr & (csr::PAUSE_AND_SYNC | csr::FORCE_SYNC) != 0 && csr & csr::ENABLE_SYNC != 0
}
