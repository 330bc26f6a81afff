// The wrong accounts: each has another expression at one place of src/account.rs.

/// Another way to follow a write to the CSR.
macro_rules! follows {
    ($says:literal, $wrong:literal) => {
        fault(concat!("account: ", $says), "self.write_csr(merged(0))", $wrong)
    };
}

/// Another way to follow a write to TEST.
macro_rules! told {
    ($says:literal, $wrong:literal) => {
        fault(concat!("account: ", $says), "self.write_test(merged(0))", $wrong)
    };
}

/// Another account after RESET.
macro_rules! wiped {
    ($says:literal, $fields:literal) => {
        fault(
            concat!("account: ", $says),
            "Account { control: self.control, factors: self.factors, hold, test_mode, ..Self::new() }",
            concat!(
                "{ let _ = (hold, test_mode); ",
                "Account { control: self.control, factors: self.factors, ", $fields, ", ..Self::new() } }"
            ),
        )
    };
}

/// Something else left waiting by a tick that ran.
macro_rules! uses {
    ($says:literal, $wrong:literal) => {
        fault(concat!("account: ", $says), "(self.step, self.pulse) = (false, false)", $wrong)
    };
}

/// Something done before a declined write is passed over.
macro_rules! declined {
    ($says:literal, $wrong:literal) => {
        fault(
            concat!("account: ", $says),
            "answer.is_err()",
            concat!("{ if answer.is_err() { let bits = bytes_of(first, count); ", $wrong, " } answer.is_err() }"),
        )
    };
}

#[rustfmt::skip]
const ACCOUNT_FAULTS: &[Fault] = &[
    fault("account: outside pulses count in test mode", "(0, false)", "(triggers, lines & 1 == 1)"),
    fault(
        "account: held outside pulses count in test mode",
        "(0, false)",
        "(if runs { 0 } else { triggers }, lines & 1 == 1)",
    ),
    fault("account: test mode is ignored", "!self.test_mode", "true"),
    fault(
        "account: held pulses do not count",
        "(triggers, lines & 1 != 0)",
        "(if runs { triggers } else { 0 }, lines & 1 != 0)",
    ),
    fault(
        "account: pulses count without hold only",
        "(triggers, lines & 1 != 0)",
        "(if self.hold { 0 } else { triggers }, lines & 1 != 0)",
    ),
    fault("account: written pulses do not count", "(u32::MAX, true)", "(0, true)"),
    fault("account: the strobe is low for a written pulse", "(u32::MAX, true)", "(u32::MAX, false)"),
    fault("account: the outside strobe counts for a written pulse", "(u32::MAX, true)", "(u32::MAX, lines & 1 == 1)"),
    fault("account: a written pulse counts on the triggers from outside", "(u32::MAX, true)", "(triggers, true)"),
    fault(
        "account: a written pulse counts on all twelve inputs",
        "(self.control >> (i + 1)) & 1 != 0",
        "(self.control >> (i + 1)) & 1 != 0 || (self.test_mode && strobe)",
    ),
    fault("account: a written pulse counts under hold", "runs && self.pulse", "self.pulse"),
    fault(
        "account: a held tick uses the pulse up",
        "runs && self.pulse",
        "{ let now = self.pulse; self.pulse &= runs; runs && now }",
    ),
    fault("account: hold is ignored", "!self.hold || self.step", "true"),
    fault("account: the step is ignored", "!self.hold || self.step", "!self.hold"),
    fault("account: a pulse that waits steps", "!self.hold || self.step", "!self.hold || self.step || self.pulse"),
    uses!("the step is not used up", "self.pulse = false"),
    uses!("a written pulse counts in every tick", "self.step = false"),
    uses!(
        "a pulse is not dropped without test mode",
        "(self.step, self.pulse) = (false, self.pulse && !self.test_mode)"
    ),
    uses!("a step is used up only under hold", "(self.step, self.pulse) = (self.step && !self.hold, false)"),
    fault(
        "account: a step is written without hold",
        "self.hold && value & test::SINGLE_STEP != 0",
        "value & test::SINGLE_STEP != 0",
    ),
    fault(
        "account: a step needs test mode",
        "self.hold && value & test::SINGLE_STEP != 0",
        "self.hold && self.test_mode && value >> 7 & 1 != 0",
    ),
    fault(
        "account: a written pulse counts at the write",
        "self.pulse |= value & test::LEVEL_1_PASS != 0",
        "if value & 1 != 0 {
            for (i, input) in self.inputs.iter_mut().enumerate() {
                input.counted += u64::from(self.control >> (i + 1) & 1);
            }
        }",
    ),
    fault(
        "account: a written pulse counts at the write and in the tick",
        "self.pulse |= value & test::LEVEL_1_PASS != 0",
        "if value & 1 != 0 {
            self.pulse = true;
            for (i, input) in self.inputs.iter_mut().enumerate() {
                input.counted += u64::from(self.control >> (i + 1) & 1);
            }
        }",
    ),
    fault(
        "account: two written pulses cancel",
        "self.pulse |= value & test::LEVEL_1_PASS != 0",
        "self.pulse ^= value & test::LEVEL_1_PASS != 0",
    ),
    fault(
        "account: the last write to TEST wins",
        "self.pulse |= value & test::LEVEL_1_PASS != 0",
        "self.pulse = value & test::LEVEL_1_PASS != 0",
    ),
    fault(
        "account: test mode is asked at the write",
        "self.pulse |= value & test::LEVEL_1_PASS != 0",
        "self.pulse |= self.test_mode && value & test::LEVEL_1_PASS != 0",
    ),
    told!("TEST by a run of bytes is ignored", "if run == u32::MAX { self.write_test(merged(0)) }"),
    told!("TEST takes bytes outside the run", "self.write_test(value)"),
    follows!(
        "modes by a run of bytes are ignored",
        "self.write_csr(if run == u32::MAX { merged(0) } else { merged(0) & !0x3000_3000 })"
    ),
    follows!("the CSR takes bytes outside the run", "self.write_csr(value)"),
    follows!("bits 28 and 29 are ignored", "self.write_csr(merged(0) & !0x3000_0000)"),
    follows!(
        "RESET ignores the modes in its own write",
        "{
            let value = merged(0);
            self.write_csr(if value & csr::RESET != 0 { value & !0x3000_3000 } else { value })
        }"
    ),
    follows!(
        "hold set and cleared at once is set",
        "{ let value = merged(0); self.write_csr(value); if value & csr::HOLD != 0 { self.hold = true; } }"
    ),
    follows!(
        "test mode set and cleared at once is set",
        "{ let value = merged(0); self.write_csr(value); if value & csr::TEST_MODE != 0 { self.test_mode = true; } }"
    ),
    follows!(
        "a step is dropped when hold goes off",
        "{ self.write_csr(merged(0)); self.step &= self.hold; }"
    ),
    follows!(
        "a pulse is dropped when test mode goes off",
        "{ self.write_csr(merged(0)); self.pulse &= self.test_mode; }"
    ),
    declined!("the modes follow declined writes", "if number == 0 { self.write_csr(value & bits & 0x3000_3000); }"),
    declined!("TEST follows declined writes", "if number == 21 { self.write_test(value & bits); }"),
    declined!(
        "control follows declined writes in test mode",
        "if number == 1 && bits == u32::MAX && self.test_mode { self.control = value; }"
    ),
    wiped!("RESET keeps the step", "hold, test_mode, step: self.step"),
    wiped!("RESET keeps the pulse", "hold, test_mode, pulse: self.pulse"),
    wiped!("RESET clears hold", "test_mode"),
    wiped!("RESET clears test mode", "hold"),
    fault(
        "account: INITIALIZE keeps the modes",
        "*self = Self::new()",
        "*self = Account { hold: self.hold, test_mode: self.test_mode, ..Self::new() }",
    ),
    fault(
        "account: INITIALIZE keeps what waits",
        "*self = Self::new()",
        "*self = Account { step: self.step, pulse: self.pulse, ..Self::new() }",
    ),
    fault(
        "account: INITIALIZE sets the modes of its write",
        "*self = Self::new()",
        "*self = Account { hold: value & csr::HOLD != 0, test_mode: value & csr::TEST_MODE != 0, ..Self::new() }",
    ),
];
