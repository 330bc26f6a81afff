// The wrong models, eighth part: writes to TEST and what they leave waiting.

/// A bit of TEST that is refused.
macro_rules! refused {
    ($says:literal, $bit:literal) => {
        fault(
            concat!("TEST: ", $says, " gets 5"),
            "!is_taken(number, value)",
            concat!("(number == 21 && value >> ", $bit, " & 1 != 0) || !is_taken(number, value)"),
        )
    };
}

/// A bit of TEST that is taken and forgotten.
macro_rules! taken {
    ($bit:literal) => {
        fault(
            concat!("TEST: bit ", $bit, " is taken"),
            "!is_taken(number, value)",
            concat!("!is_taken(number, if number == 21 { value & !(1 << ", $bit, ") } else { value })"),
        )
    };
}

/// Another way for a write to join what waits.
macro_rules! join {
    ($says:literal, $wrong:literal) => {
        fault($says, "self.test |= taken", $wrong)
    };
}

#[rustfmt::skip]
const TEST_FAULTS: &[Fault] = &[
    refused!("level 1 pass", 0),
    refused!("level 2 pass", 2),
    refused!("level 3 pass", 3),
    refused!("level 2 fail", 4),
    refused!("level 3 fail", 5),
    refused!("single step", 7),
    refused!("front busy", 8),
    refused!("external inhibit", 9),
    refused!("the acknowledge of branch 1", 10),
    refused!("the acknowledge of branch 2", 11),
    refused!("the acknowledge of branch 3", 12),
    refused!("the acknowledge of branch 4", 13),
    refused!("the enable of acknowledges", 14),
    taken!(1),
    taken!(6),
    taken!(15),
    taken!(16),
    taken!(17),
    taken!(18),
    taken!(19),
    taken!(20),
    taken!(21),
    taken!(22),
    taken!(23),
    taken!(24),
    taken!(25),
    taken!(26),
    taken!(27),
    taken!(28),
    taken!(29),
    taken!(30),
    taken!(31),
    fault(
        "a write to TEST without test mode gets 5",
        "!is_taken(number, value)",
        "(number == 21 && self.csr >> 13 & 1 == 0) || !is_taken(number, value)",
    ),
    fault("a write to TEST gets 3", "!is_writable(number)", "!is_writable(number) || number == 21"),
    fault(
        "register 22 is written too",
        "!is_writable(number)",
        "{ if number == 22 { return Ok(()); } !is_writable(number) }",
    ),
    fault(
        "TEST is read",
        "self.value_of(number)",
        "self.value_of(number).or((number == 21).then_some(self.test))",
    ),
    fault("TEST reads as 0", "self.value_of(number)", "self.value_of(number).or((number == 21).then_some(0))"),
    fault(
        "TEST is protected",
        "matches!(number, Self::CONTROL..=Self::T5) && self.is_active()",
        "(matches!(number, Self::CONTROL..=Self::T5) || number == 21) && self.is_active()",
    ),
    merge!("TEST bytes outside the run are written", "21", "value"),
    merge!(
        "lacking bytes of TEST are those that wait", "21",
        "run.cut(value) | (self.test & !run.bits())"
    ),
    fault(
        "TEST is written in the whole word only",
        "self.write_test(value)",
        "if run.bits() == u32::MAX { self.write_test(value) }",
    ),
    fault(
        "TEST is written only with BYTE(3)",
        "self.write_test(value)",
        "if run.holds_byte_3() { self.write_test(value) }",
    ),
    fault(
        "a run of TEST takes the place of what waits in its bytes",
        "self.write_test(value)",
        "{ self.test &= !run.bits(); self.write_test(value) }",
    ),
    join!("the last write to TEST wins", "self.test = taken"),
    join!("the first write to TEST wins", "if self.test == 0 { self.test = taken }"),
    join!("the last write to TEST wins, but a step stays", "self.test = (self.test & 0x80) | (taken)"),
    join!("two writes of one TEST bit cancel", "self.test ^= taken"),
    join!(
        "a write of 0 to TEST drops what waits",
        "self.test = if value == 0 { 0 } else { self.test | taken }"
    ),
    join!(
        "a step takes the place of the pulses",
        "self.test = if value & 0x80 != 0 { value } else { self.test | value }"
    ),
    join!(
        "test mode is asked at the write",
        "self.test |= taken & if self.csr & csr::MODES < csr::TEST_MODE { 0x80 } else { u32::MAX }"
    ),
    join!("TEST is written only with GO", "self.test |= if self.csr & csr::GO != 0 { taken } else { 0 }"),
    join!(
        "a write under hold is forgotten but for the step",
        "self.test |= value & if self.csr >> 12 & 1 != 0 { 0x80 } else { !0x80 }"
    ),
];
