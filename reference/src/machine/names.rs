//! The numbers and bits that have names: declines, registers, assign codes, test bits, lines, words of the memory and
//! of a queue, and the sizes.

/// The numbers with which a call is declined. [Declines.1a]
pub mod decline {
    /// The record is spoiled.
    pub const SPOILED: u8 = 1;
    /// The lent memory has not 4,096 words.
    pub const LENGTH: u8 = 2;
    /// Register number over 21, a write to STATE, a read of TEST, or memory place over 4,095.
    pub const NUMBER: u8 = 3;
    /// The supervisor is active.
    pub const ACTIVE: u8 = 4;
    /// A value has a bit or a code that its place does not take.
    pub const VALUE: u8 = 5;
    /// Console only: a line of other form. [Console.5]
    pub const FORM: u8 = 6;
    /// A run of bytes that is empty or leaves the four; never from a plain call. [Bytes.11]
    pub const RUN: u8 = 7;
    /// A word for the generator without level 1 OK or without exactly one class. [Table.8b]
    pub const WORD: u8 = 8;
}

/// Bits of the CSR. [CSR.1] [CSR.2] [CSRWrite.1] [Test.1]
pub mod csr {
    pub const GO: u32 = 1 << 0;
    pub const PAUSE_ON_NEXT_SYNC: u32 = 1 << 1;
    pub const PAUSE_AND_SYNC: u32 = 1 << 2;
    pub const FORCE_SYNC: u32 = 1 << 3;
    pub const ENABLE_SYNC: u32 = 1 << 4;
    pub const LEVEL_1_HARDWARE: u32 = 1 << 5;
    pub const USE_T1: u32 = 1 << 6;
    pub const USE_T4: u32 = 1 << 7;
    pub const USE_T5: u32 = 1 << 8;
    pub const ROC_LOCK: u32 = 1 << 9;
    pub const ROC_LOCK_BRANCH_4: u32 = 1 << 10;
    pub const OVERRIDE_INHIBIT: u32 = 1 << 11;
    pub const HOLD: u32 = 1 << 12;
    pub const TEST_MODE: u32 = 1 << 13;

    pub const INHIBIT: u32 = 1 << 16;
    pub const LATE_FAIL: u32 = 1 << 17;
    pub const SYNC: u32 = 1 << 18;
    pub const WRITE_ERROR: u32 = 1 << 19;
    pub const READ_ERROR: u32 = 1 << 20;

    /// Bits 0–13, which a write sets and clears.
    pub const CONTROLS: u32 = 0x0000_3FFF;
    /// The two modes of service. [Test.1]
    pub const MODES: u32 = HOLD | TEST_MODE;
    /// Bits 16–20, the status bits.
    pub const STATUS: u32 = 0x001F_0000;
    /// What a record that is not spoiled may store. [Spoiled.1a] [Test.10]
    pub const STORED: u32 = CONTROLS | STATUS;
    /// The bits that RESET clears. [CSRWrite.2d]
    pub const CLEARED_BY_RESET: u32 = GO | PAUSE_ON_NEXT_SYNC | PAUSE_AND_SYNC | FORCE_SYNC;

    /// Only in a written value: make the record fresh.
    pub const INITIALIZE: u32 = 1 << 15;
    /// Only in a written value: empty, idle and zero what runs.
    pub const RESET: u32 = 1 << 14;
    /// Only in a written value: clear the status bits.
    pub const CLEAR_STATUS: u32 = 1 << 31;
    /// Only in a written value: bits 16–29 clear bits 0–13.
    pub const CLEAR_SHIFT: u32 = 16;
    /// A write with bit 30 is declined. [Declines.2d] [Test.10]
    pub const NOT_TAKEN: u32 = 1 << 30;
}

/// Bits of the trigger control register. [Control.1]
pub mod control {
    pub const STROBE_MODE: u32 = 1 << 0;
    pub const OPEN_PRESCALES: u32 = 1 << 15;
    /// Bits 1–12 enable inputs 1–12; shifted down by one they lie as the trigger bits do.
    pub const ENABLE_SHIFT: u32 = 1;
    /// Bits 13, 14 and all above 15 lie outside the register. [Open: R2]
    pub const BITS: u32 = 0x0000_9FFF;

    /// The pulses that count: input enabled and, in strobe mode, strobe high. [Pulses.1]
    #[inline]
    pub const fn counted(control: u32, triggers: u32, lines: u32) -> u32 {
        if control & STROBE_MODE != 0 && lines & super::line::STROBE == 0 {
            0
        } else {
            triggers & (control >> ENABLE_SHIFT) & super::TRIGGER_BITS
        }
    }
}

/// Codes of scaler 1's assignment: the first of each sixteen that count the same. [Assign.1]
pub mod assign {
    pub const LEVEL_2_FAIL: u32 = 0x10;
    pub const LEVEL_3_FAIL: u32 = 0x20;
    pub const LATE_FAIL: u32 = 0x30;
    pub const SYNC: u32 = 0x50;
}

/// Bits of TEST, as section 3.10 of source document 001 has them. [Test.1]
pub mod test {
    /// Pulses every enabled input, with the strobe. [Test.3]
    pub const LEVEL_1_PASS: u32 = 1 << 0;
    pub const LEVEL_2_PASS: u32 = 1 << 2;
    pub const LEVEL_3_PASS: u32 = 1 << 3;
    pub const LEVEL_2_FAIL: u32 = 1 << 4;
    pub const LEVEL_3_FAIL: u32 = 1 << 5;
    /// Lets one tick through under hold. [Test.8a]
    pub const SINGLE_STEP: u32 = 1 << 7;
    pub const FRONT_BUSY: u32 = 1 << 8;
    pub const INHIBIT: u32 = 1 << 9;
    /// The acknowledges of branch 1; those of branch b are at bit 9 + b.
    pub const ACKNOWLEDGE_SHIFT: u32 = 10;
    /// Puts the written acknowledges in force. [Test.4]
    pub const ENABLE_ACKNOWLEDGES: u32 = 1 << 14;
    /// What a write takes: all but 1, 6, 15 and those above. [Test.5a]
    pub const BITS: u32 = 0x0000_7FBD;
}

/// The seven lines that a tick takes in. [Tick.1]
pub mod line {
    pub const STROBE: u32 = 1 << 0;
    pub const LEVEL_2_PASS: u32 = 1 << 1;
    pub const LEVEL_2_FAIL: u32 = 1 << 2;
    pub const LEVEL_3_PASS: u32 = 1 << 3;
    pub const LEVEL_3_FAIL: u32 = 1 << 4;
    pub const FRONT_BUSY: u32 = 1 << 5;
    pub const INHIBIT: u32 = 1 << 6;
    pub const ALL: u32 = 0x7F;
}

/// The lines that main raises, where the answer has them. [Answer.1] [Main.17]
pub mod raised {
    pub const LEVEL_1_OK: u8 = 1 << 0;
    pub const LEVEL_2_START: u8 = 1 << 1;
    pub const LEVEL_2_ACCEPT: u8 = 1 << 2;
    pub const LEVEL_3_START: u8 = 1 << 3;
    pub const LEVEL_3_ACCEPT: u8 = 1 << 4;
    pub const ALL: u8 = 0x1F;
    /// What Delay waits for. [Main.7]
    pub const BOTH_ACCEPTS: u8 = LEVEL_2_ACCEPT | LEVEL_3_ACCEPT;
}

/// The other lines that an answer gives out; bits 0–4 are main's raised lines, bits 8–15 the accept pattern. [Answer.1]
pub mod line_out {
    pub const CLEAR: u16 = 1 << 5;
    pub const LEVEL_1_HARDWARE: u16 = 1 << 6;
    pub const ACCEPT_PATTERN_SHIFT: u32 = 8;
}

/// Bits of a memory word. [Memory.2]
pub mod entry {
    pub const LEVEL_1_OK: u16 = 1 << 0;
    /// Bits 1–3 are classes 1–3.
    pub const CLASSES: u16 = 0x000E;
    /// Level 1 OK, class and code: bits 0–7.
    pub const LOW: u16 = 0x00FF;
    pub const ACCEPT_PATTERN: u16 = 0xFF00;
}

/// Bits of a word in a branch's queue. [Main.9]
pub mod word {
    pub const CODE: u8 = 0x0F;
    pub const SYNC: u8 = 1 << 4;
    pub const LATE: u8 = 1 << 5;
    pub const ALL: u8 = CODE | SYNC | LATE;
    /// The word that a user sync loads. [Usersync.1]
    pub const TAG: u8 = SYNC;
}

/// The inputs, with or without a prescaler. [Tick.1]
pub const INPUTS: usize = 12;
/// The twelve trigger bits. [Tick.1]
pub const TRIGGER_BITS: u32 = 0xFFF;
/// Words of the lent memory. [Memory.1]
pub const MEMORY_WORDS: usize = 4_096;
/// Branches that carry words to the readout controllers. [Registers.1]
pub const BRANCHES: usize = 4;
/// Places in a branch's queue. [Main.13]
pub const PLACES: usize = 8;
