// The wrong models, thirteenth part: writes to settings and places whose order would matter, or one of which disturbs
// the next. [Order.2] [Order.3]

/// Another test of a setting's value, or something done where it is declined with 5, as `bad` says.
macro_rules! tested {
    ($says:literal, $wrong:literal) => {
        fault(
            $says,
            "!is_taken(number, value)",
            concat!(
                "{ let bad = matches!(number, 1..=16) && !is_taken(number, value); let _ = bad; ",
                $wrong, " !is_taken(number, value) }"
            ),
        )
    };
}

/// A setting's value that is declined with 5 for what another register holds.
macro_rules! refused_beside {
    ($says:literal, $wrong:literal) => {
        fault($says, "!is_taken(number, value)", concat!("(", $wrong, ") || !is_taken(number, value)"))
    };
}

/// Something done besides the decline 4 of a setting.
macro_rules! active_setting {
    ($says:literal, $wrong:literal) => {
        fault($says, "self.csr |= csr::WRITE_ERROR", $wrong)
    };
}

/// Another memory write carried out.
macro_rules! stored {
    ($says:literal, $wrong:literal) => {
        fault($says, "memory[place] = word", $wrong)
    };
}

/// A memory write that stores before its declines are tested; `at` is the place, in a memory of 4,096 words and a
/// record that is not spoiled.
macro_rules! stored_before {
    ($says:literal, $wrong:literal) => {
        fault(
            $says,
            "self.memory_place(memory.len(), place, csr::WRITE_ERROR)",
            concat!(
                "{ let at = place as usize; if memory.len() == MEMORY_WORDS && !self.is_spoiled() { ",
                $wrong, " } self.memory_place(memory.len(), place, csr::WRITE_ERROR) }"
            ),
        )
    };
}

/// A place beyond the last that is taken as another while inactive.
macro_rules! beyond {
    ($says:literal, $places:literal, $wrong:literal) => {
        fault(
            $says,
            "place as usize >= MEMORY_WORDS",
            concat!(
                "{ if matches!(place, ", $places, ") && !self.is_active() { return Ok(", $wrong,
                "); } place as usize >= MEMORY_WORDS }"
            ),
        )
    };
}

#[rustfmt::skip]
const ORDER_FAULTS: &[Fault] = &[
    merge!(
        "lacking bytes of a factor are those of the factor before", "3..=9",
        "run.cut(value) | (self.factors[register as usize - 3] & !run.bits())"
    ),
    merge!(
        "lacking bytes of a timer are those of the timer before", "13..=16",
        "run.cut(value) | (self.value_of(register - 1).unwrap_or(0) & !run.bits())"
    ),
    merge!("lacking bytes of the interval are those of T1", "11", "run.cut(value) | (self.t1.0 & !run.bits())"),
    merge!(
        "lacking bytes of ROC enable are those of control", "10",
        "run.cut(value) | (self.control & !run.bits())"
    ),

    tested!(
        "a value declined with 5 is stored, cut to its register",
        "if bad { self.store(number, run, value & TAKEN_BITS[number as usize]); }"
    ),
    tested!(
        "BYTE(3) of a value declined with 5 is stored",
        "if bad { let low = self.merged(number, Run::new(3, 1)?, value); self.store(number, run, low); }"
    ),
    tested!(
        "a factor declined with 5 loads its counter",
        "if bad && matches!(number, 2..=9) { let at = number as usize - 2; self.counters[at] = self.factors[at]; }"
    ),
    tested!("a decline 5 of a setting sets the write error", "if bad { self.csr |= csr::WRITE_ERROR; }"),
    refused_beside!("a T3 below T2 gets 5", "number == 14 && value < self.t2.0"),
    refused_beside!("an interval without a controller enabled gets 5", "number == 11 && self.roc_enable == 0"),
    refused_beside!(
        "a factor of an input that is not enabled gets 5",
        "matches!(number, 2..=9) && self.control >> (number - 1) & 1 == 0"
    ),
    refused_beside!(
        "a second factor of more than 14 bits gets 5",
        "matches!(number, 2..=5) && value > 0x3FFF && self.factors.iter().any(|&other| other > 0x3FFF)"
    ),
    fault(
        "a setting is tested by the width of the one before",
        "!is_taken(number, value)",
        "!is_taken(if matches!(number, 2..=16) { number - 1 } else { number }, value)",
    ),

    fault(
        "settings are taken while active once one was declined with 4",
        "matches!(number, Self::CONTROL..=Self::T5) && self.is_active()",
        "matches!(number, Self::CONTROL..=Self::T5) && self.csr & csr::WRITE_ERROR == 0 && self.is_active()",
    ),
    fault(
        "settings get 4 for as long as the write error stands",
        "matches!(number, Self::CONTROL..=Self::T5) && self.is_active()",
        "matches!(number, Self::CONTROL..=Self::T5) && (self.is_active() || self.csr & csr::WRITE_ERROR != 0)",
    ),
    open!(
        "a control of 0 opens every setting in test mode",
        "self.csr >> 13 & 1 != 0 && (number == 1 || self.control == 0)"
    ),
    active_setting!("a decline 4 ends test mode", "self.csr = (self.csr | csr::WRITE_ERROR) & !csr::TEST_MODE"),
    active_setting!("a decline 4 clears GO", "self.csr = (self.csr | csr::WRITE_ERROR) & !csr::GO"),
    active_setting!("a second decline 4 clears the write error", "self.csr ^= csr::WRITE_ERROR"),
    active_setting!(
        "a factor declined with 4 loads its counter",
        "{
            if matches!(number, 2..=9) { let at = number as usize - 2; self.counters[at] = self.factors[at]; }
            self.csr |= csr::WRITE_ERROR
        }"
    ),

    load!(
        "a factor write loads the counter of the next input",
        "{
            if run.holds_byte_3() && input < 7 { self.counters[input + 1] = self.factors[input + 1]; }
            if run.holds_byte_3() { value } else { self.counters[input] }
        }"
    ),
    load!(
        "a factor write with BYTE(3) loads every counter",
        "if run.holds_byte_3() { self.counters.copy_from_slice(&self.factors); value } else { self.counters[input] }"
    ),
    load!(
        "a factor write without BYTE(3) loads every other counter",
        "if run.holds_byte_3() { value } else {
            let kept = self.counters[input];
            self.counters.copy_from_slice(&self.factors);
            kept
        }"
    ),
    fault(
        "a factor of inputs 5-8 is one of inputs 1-4 too",
        "self.factors[input] = value",
        "(self.factors[input % 4], self.factors[input]) = (value, value)",
    ),
    fault(
        "a control write loads the counters of the inputs that it enables",
        "self.control = value",
        "{
            for i in 0..8 {
                if value & !self.control & 2 << i != 0 { self.counters[i] = self.factors[i]; }
            }
            self.control = value
        }",
    ),
    fault(
        "a ROC enable of 0 zeroes the interval",
        "self.roc_enable = value",
        "(self.roc_enable, self.sync_interval) = (value, if value == 0 { 0 } else { self.sync_interval })",
    ),
    fault(
        "an interval is cut to T1",
        "self.sync_interval = value",
        "self.sync_interval = value.min(self.t1.0)",
    ),
    fault(
        "T1 spills into the low byte of T2",
        "self.t1 = Count40(value)",
        "(self.t1.0, self.t2.0) = (value, (self.t2.0 & 0xFF00) | (value & 0xFF))",
    ),
    fault("T2 lifts T3", "self.t2 = Count40(value)", "(self.t2.0, self.t3.0) = (value, self.t3.0.max(value))"),
    fault("T3 is written into T4", "self.t3 = Count40(value)", "self.t4.0 = value"),
    fault(
        "T4 spills into T5",
        "self.t4 = Count40(value)",
        "(self.t4.0, self.t5.0) = (value, if value > 0xFF { value >> 8 } else { self.t5.0 })",
    ),
    fault(
        "T5 is the low byte of T4",
        "self.t5 = Count20(value)",
        "(self.t5.0, self.t4.0) = (value, (self.t4.0 & 0xFF00) | value)",
    ),

    stored!("a place is taken modulo 2,048", "memory[place % 2_048] = word"),
    stored!("a memory write goes to the neighbour too", "(memory[place], memory[place ^ 1]) = (word, word)"),
    stored!(
        "a word keeps level 1 OK of the place before",
        "memory[place] = word | if place > 0 { memory[place - 1] & 1 } else { 0 }"
    ),
    stored!(
        "a word that stands at the next place is not written twice",
        "if place == 4_095 || memory[place + 1] & 0xF != word & 0xF { memory[place] = word }"
    ),
    stored!(
        "a memory write is forgotten while the write error stands",
        "if self.csr & csr::WRITE_ERROR == 0 { memory[place] = word }"
    ),
    stored!(
        "a memory write loads the counters",
        "{ self.counters.copy_from_slice(&self.factors); memory[place] = word }"
    ),
    stored_before!(
        "a memory write declined with 4 is carried out",
        "if at < MEMORY_WORDS { memory[at] = word; }"
    ),
    stored_before!(
        "a memory write declined with 3 goes to the place modulo 4,096",
        "if at >= MEMORY_WORDS && !self.is_active() { memory[at % MEMORY_WORDS] = word; }"
    ),
    stored_before!(
        "a memory write declined with 3 zeroes the last place",
        "if at >= MEMORY_WORDS { memory[MEMORY_WORDS - 1] = 0; }"
    ),
    beyond!("place 4,096 is place 0", "4_096", "0"),
    beyond!("every place beyond the last is the last", "4_096..", "MEMORY_WORDS - 1"),
    fault(
        "memory is reached while active once a call was declined with 4",
        "self.csr |= error",
        "{ if self.csr & error != 0 { return Ok(place as usize); } self.csr |= error }",
    ),
];
