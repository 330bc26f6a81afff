// The wrong models, first part: the spoiled rule, and the register and memory calls.

#[rustfmt::skip]
const CALL_FAULTS: &[Fault] = &[
    fault(
        "spoiled: CSR bit 14 passes",
        "(self.csr & !csr::STORED)",
        "(self.csr & !(csr::STORED | 1 << 14))",
    ),
    fault(
        "spoiled: control bits 13 and 14 pass",
        "(self.control & !control::BITS)",
        "(self.control & !0xFFFF)",
    ),
    fault(
        "spoiled: a factor of inputs 1-4 may have 21 bits",
        "self.factors[i] | self.counters[i]",
        "(self.factors[i] & !(1 << 20)) | self.counters[i]",
    ),
    fault(
        "spoiled: a factor of inputs 5-8 may have 20 bits",
        "self.factors[4 + i] | self.counters[4 + i]",
        "(self.factors[4 + i] & !0xF_C000) | self.counters[4 + i]",
    ),
    fault(
        "spoiled: a code over Fh passes",
        "u32::from(self.code & !word::CODE)",
        "0",
    ),
    fault(
        "spoiled: a sync count of 65,535 passes",
        "(self.sync_count > Self::SYNC_COUNT_LIMIT)",
        "(self.sync_count > 65_535)",
    ),
    fault(
        "spoiled: an age of 131,071 passes",
        "(self.age > Self::AGE_LIMIT)",
        "(self.age > Self::AGE_LIMIT + 1)",
    ),
    fault(
        "spoiled: Wait 2 in class 1 passes",
        "matches!(self.class, 2 | 3)",
        "matches!(self.class, 1..=3)",
    ),
    fault("spoiled: a cycle while a user sync waits passes", "self.user_sync_waiting || no_class", "no_class"),
    fault(
        "spoiled: eight words while a user sync waits do not pass",
        "self.user_sync_waiting | matches!(self.main, MainState::Space | MainState::SyncHold)",
        "matches!(self.main, MainState::Space | MainState::SyncHold)",
    ),
    fault(
        "spoiled: eight words at Front pass",
        "self.user_sync_waiting | matches!(self.main, MainState::Space | MainState::SyncHold)",
        "self.user_sync_waiting | matches!(self.main, MainState::Front | MainState::Space | MainState::SyncHold)",
    ),
    fault(
        "spoiled: Strobe without a word passes",
        "(self.used == 0) & (self.state == BranchState::Strobe)",
        "false",
    ),
    fault(
        "spoiled: the assign codes 40-4F pass",
        "!is_listed(self.assign)",
        "(self.assign > 0x5F)",
    ),
    fault(
        "active: a wanted user sync is left out",
        "sync_wanted(self.csr)",
        "false",
    ),
    fault(
        "register write: decline 5 before decline 4",
        "matches!(number, Self::CONTROL..=Self::T5) && self.is_active()",
        "matches!(number, Self::CONTROL..=Self::T5) && is_taken(number, value) && self.is_active()",
    ),
    fault(
        "register write: 17-19 declined while active",
        "matches!(number, Self::CONTROL..=Self::T5) && self.is_active()",
        "matches!(number, Self::CONTROL..=Self::ASSIGN) && self.is_active()",
    ),
    fault(
        "register write: T5 taken while active",
        "matches!(number, Self::CONTROL..=Self::T5) && self.is_active()",
        "matches!(number, Self::CONTROL..=Self::T4) && self.is_active()",
    ),
    fault(
        "register write: decline 4 sets the read error",
        "self.csr |= csr::WRITE_ERROR",
        "self.csr |= csr::READ_ERROR",
    ),
    fault(
        "register write: the factor of input 8 has 20 bits (P9)",
        "!is_taken(number, value)",
        "!is_taken(if number == 9 { 5 } else { number }, value)",
    ),
    fault(
        "register write: a control value with bit 13 is taken",
        "!is_taken(number, value)",
        "!is_taken(number, if number == 1 { value & !0x2000 } else { value })",
    ),
    fault(
        "register write: INITIALIZE with bit 30 is taken",
        "!is_taken(number, value)",
        "!(is_taken(number, value) || (number == 0 && value & csr::INITIALIZE != 0))",
    ),
    fault(
        "a factor's write leaves its counter at 0",
        "if run.holds_byte_3() { value } else { self.counters[input] }",
        "0",
    ),
    fault(
        "a write to register 17 stores the value",
        "if run.holds_byte_3() { 0 } else { self.scalers[scaler] }",
        "if scaler == 0 { value } else { 0 }",
    ),
    fault(
        "memory: a longer slice is taken",
        "words != MEMORY_WORDS",
        "words < MEMORY_WORDS",
    ),
    fault(
        "memory: the place is tested before the length",
        "words != MEMORY_WORDS",
        "words != MEMORY_WORDS && (place as usize) < MEMORY_WORDS",
    ),
    fault(
        "memory read: decline 4 sets the write error",
        "self.csr |= error",
        "self.csr |= csr::WRITE_ERROR",
    ),
];
