// The wrong models, eleventh part: the modes in the CSR, RESET and INITIALIZE, and what the modes open, spoil and show.

/// Something else that RESET does with what waits and with the modes.
macro_rules! reset {
    ($says:literal, $wrong:literal) => {
        fault($says, "self.drop_waiting()", $wrong)
    };
}

/// Something else after a CSR write that is no INITIALIZE.
macro_rules! after {
    ($says:literal, $wrong:literal) => {
        fault($says, "self.csr = after", $wrong)
    };
}

/// What waits cut to some bits by a CSR write, under a condition.
macro_rules! cuts {
    ($says:literal, $when:literal, $bits:literal) => {
        fault(
            $says,
            "self.csr = after",
            concat!("(self.csr, self.test) = (after, self.test & if ", $when, " { ", $bits, " } else { u32::MAX })"),
        )
    };
}

/// Another register that is open, or closed, while active.
macro_rules! open {
    ($says:literal, $wrong:literal) => {
        fault($says, "number == Self::CONTROL && self.csr & csr::TEST_MODE != 0", $wrong)
    };
}

/// A CSR bit that gets 5.
macro_rules! csr_refused {
    ($bit:literal) => {
        fault(
            concat!("CSR write: bit ", $bit, " gets 5"),
            "!is_taken(number, value)",
            concat!("(number == 0 && value >> ", $bit, " & 1 != 0) || !is_taken(number, value)"),
        )
    };
}

#[rustfmt::skip]
const MODE_FAULTS: &[Fault] = &[
    reset!("RESET keeps what waits", "()"),
    reset!("RESET keeps the pulses", "self.test &= !0x80"),
    reset!("RESET keeps the step", "self.test &= 0x80"),
    reset!("RESET keeps odd bits", "self.test &= 0xFFFF_8042"),
    reset!("RESET clears hold", "{ self.drop_waiting(); self.csr &= !csr::HOLD }"),
    reset!("RESET clears test mode", "{ self.drop_waiting(); self.csr &= !csr::TEST_MODE }"),
    reset!("RESET clears both modes", "{ self.drop_waiting(); self.csr &= !csr::MODES }"),
    after!(
        "RESET ignores the modes in its own write",
        "self.csr = if value & csr::RESET != 0 { after & !csr::MODES | before & csr::MODES } else { after }"
    ),
    cuts!("a step is dropped when hold goes off", "after & csr::HOLD == 0", "!0x80"),
    cuts!("a step is dropped when hold is written", "value & csr::HOLD != 0", "!0x80"),
    cuts!("pulses are dropped when test mode goes off", "before & !after & csr::TEST_MODE != 0", "0x80"),
    cuts!("pulses are dropped when test mode comes on", "after & !before & csr::TEST_MODE != 0", "0x80"),
    cuts!("pulses are dropped when hold comes on", "after & !before & csr::HOLD != 0", "0x80"),
    cuts!("GO rising drops what waits", "go_rises", "0"),
    after!("GO rising clears hold", "self.csr = if go_rises { after & !csr::HOLD } else { after }"),
    after!(
        "bit 31 clears the modes",
        "self.csr = if value & csr::CLEAR_STATUS != 0 { after & !csr::MODES } else { after }"
    ),
    after!(
        "hold goes only with test mode",
        "self.csr = if after & csr::TEST_MODE == 0 { after & !csr::HOLD } else { after }"
    ),
    fault(
        "INITIALIZE keeps the modes",
        "*self = Self::fresh()",
        "*self = Supervisor { csr: self.csr & csr::MODES, ..Self::fresh() }",
    ),
    fault(
        "INITIALIZE keeps what waits",
        "*self = Self::fresh()",
        "*self = Supervisor { test: self.test, ..Self::fresh() }",
    ),
    fault(
        "INITIALIZE sets the modes of its write",
        "*self = Self::fresh()",
        "*self = Supervisor { csr: value & csr::MODES, ..Self::fresh() }",
    ),
    fault("CSR write: bit 12 is not stored", "value & csr::CONTROLS", "value & csr::CONTROLS & !csr::HOLD"),
    fault("CSR write: bit 13 is not stored", "value & csr::CONTROLS", "value & csr::CONTROLS & !csr::TEST_MODE"),
    fault(
        "CSR write: bit 28 clears nothing",
        "(value >> csr::CLEAR_SHIFT) & csr::CONTROLS",
        "(value >> csr::CLEAR_SHIFT) & csr::CONTROLS & !csr::HOLD",
    ),
    fault(
        "CSR write: bit 29 clears nothing",
        "(value >> csr::CLEAR_SHIFT) & csr::CONTROLS",
        "(value >> csr::CLEAR_SHIFT) & csr::CONTROLS & !csr::TEST_MODE",
    ),
    fault(
        "CSR write: bits 28 and 29 are exchanged",
        "(value >> csr::CLEAR_SHIFT) & csr::CONTROLS",
        "((value >> 16) & 0xFFF | (value >> 28 & 1) << 13 | (value >> 29 & 1) << 12)",
    ),
    csr_refused!(12),
    csr_refused!(13),
    csr_refused!(28),
    csr_refused!(29),
    fault(
        "CSR write: bit 30 is taken",
        "!is_taken(number, value)",
        "!is_taken(number, if number == 0 { value & !(1 << 30) } else { value })",
    ),
    fault("spoiled: CSR bit 12", "(self.csr & !csr::STORED)", "(self.csr & !(csr::STORED & !csr::HOLD))"),
    fault("spoiled: CSR bit 13", "(self.csr & !csr::STORED)", "(self.csr & !(csr::STORED & !csr::TEST_MODE))"),
    fault(
        "spoiled: odd bits that wait do not pass",
        "(self.clear_count > Self::CLEAR_COUNT_LIMIT)",
        "(self.clear_count > Self::CLEAR_COUNT_LIMIT) | (self.test & !0x7FBD != 0)",
    ),
    fault(
        "spoiled: a step that waits without hold does not pass",
        "(self.clear_count > Self::CLEAR_COUNT_LIMIT)",
        "(self.clear_count > Self::CLEAR_COUNT_LIMIT) | ((self.test & 0x80 != 0) & (self.csr >> 12 & 1 == 0))",
    ),
    open!("control is not open in test mode", "false"),
    open!("every setting is open in test mode", "self.csr >> 13 & 1 != 0"),
    open!("control is open under hold", "number == Self::CONTROL && self.csr & csr::MODES != 0"),
    open!("control is open only in both modes", "number == Self::CONTROL && self.csr & csr::MODES == csr::MODES"),
    open!("control is open without a mode", "number == Self::CONTROL"),
    open!("the factors are open in test mode", "matches!(number, 1..=9) && self.csr >> 13 & 1 != 0"),
    open!("ROC enable is open in test mode", "matches!(number, 1 | 10) && self.csr >> 13 & 1 != 0"),
    open!("T5 is open in test mode", "matches!(number, 1 | 16) && self.csr >> 13 & 1 != 0"),
    open!(
        "control is open only with GO clear",
        "number == Self::CONTROL && self.csr >> 13 & 1 != 0 && self.csr & csr::GO == 0"
    ),
    fault(
        "the value of control is not tested in test mode",
        "!is_taken(number, value)",
        "!is_taken(number, value) && !(number == 1 && self.csr & csr::TEST_MODE != 0 && self.is_active())",
    ),
    fault(
        "control written while active in test mode sets the write error",
        "self.control = value",
        "(self.control, self.csr) = (value, self.csr | if self.is_active() { 1 << 19 } else { 0 })",
    ),
    fault("active: hold is active", "sync_wanted(self.csr)", "sync_wanted(self.csr) || self.csr & csr::HOLD != 0"),
    fault(
        "active: test mode is active",
        "sync_wanted(self.csr)",
        "sync_wanted(self.csr) || self.csr & csr::TEST_MODE != 0",
    ),
    fault("active: something that waits is active", "sync_wanted(self.csr)", "sync_wanted(self.csr) || self.test != 0"),
    ready!("READY not under hold", "csr", "main", "waits", "blind", "lines", "csr & super::csr::HOLD == 0"),
    ready!("READY not in test mode", "csr", "main", "waits", "blind", "lines", "csr & super::csr::TEST_MODE == 0"),
    bit!("STATE: front busy shows what waits", 10, "bits[10] || self.test & 0x100 != 0"),
    bit!("STATE: front busy is low under hold", 10, "bits[10] && self.csr & super::csr::HOLD == 0"),
    fault(
        "the outside is in force in test mode",
        "self.csr & csr::TEST_MODE == 0",
        "true",
    ),
    fault(
        "a stepped tick takes what is written without test mode",
        "self.csr & csr::TEST_MODE == 0",
        "false",
    ),
];
