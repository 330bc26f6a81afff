// The wrong models, sixth part: runs of bytes, merged writes, and the declines of byte-wise access.

/// Another test of what is no run, or a way around it; `sum` is the end of the run, unbounded.
macro_rules! no_run {
    ($says:literal, $wrong:literal) => {
        fault(
            $says,
            "count == 0 || u64::from(first) + u64::from(count) > u64::from(Self::BYTES)",
            concat!("{ let sum = u64::from(first) + u64::from(count); let _ = sum; ", $wrong, " }"),
        )
    };
}

/// Another answer to whether a run holds BYTE(3).
macro_rules! byte_3 {
    ($says:literal, $wrong:literal) => {
        fault($says, "self.first + self.count == Self::BYTES", $wrong)
    };
}

/// Another merged value for these registers.
macro_rules! merge {
    ($says:literal, $registers:literal, $wrong:literal) => {
        fault(
            $says,
            "run.cut(value) | (kept & !run.bits())",
            concat!(
                "if matches!(register, ", $registers, ") { ", $wrong, " } ",
                "else { run.cut(value) | (kept & !run.bits()) }"
            ),
        )
    };
}

/// Something done or answered before a write's decline 3.
macro_rules! before_3 {
    ($says:literal, $wrong:literal) => {
        fault(
            $says,
            "!is_writable(number)",
            concat!(
                "{ let bad = is_writable(number) && Run::new(first, count).is_err(); ",
                "let active = matches!(number, 1..=16) && self.is_active(); let _ = (bad, active); ",
                $wrong, " !is_writable(number) }"
            ),
        )
    };
}

/// Another counter after a factor write.
macro_rules! load {
    ($says:literal, $wrong:literal) => {
        fault($says, "if run.holds_byte_3() { value } else { self.counters[input] }", $wrong)
    };
}

#[rustfmt::skip]
const BYTE_FAULTS: &[Fault] = &[
    no_run!("an empty run is taken", "sum > 4"),
    no_run!("an empty run right behind the four bytes is taken", "(count == 0 && first != 4) || sum > 4"),
    no_run!(
        "a run past the end is taken and cut",
        "if first < 4 && sum > 4 { return Ok(Run { first, count: 4 - first }); } count == 0 || sum > 4"
    ),
    no_run!(
        "a run past the end stands for the whole",
        "if first < 4 && sum > 4 { return Ok(Run { first: 0, count: 4 }); } count == 0 || sum > 4"
    ),
    no_run!("the sum of first and count wraps", "count == 0 || first.wrapping_add(count) > 4"),
    no_run!("the sum is cut to 16 bits", "count == 0 || sum as u16 > 4"),
    no_run!(
        "the first byte is taken modulo 4",
        "let first = first % 4; if count > 0 && count <= 4 - first { return Ok(Run { first, count }); } true"
    ),
    no_run!("a run may be one byte too long", "count == 0 || sum > 5"),
    no_run!("a run that starts behind BYTE(3) is taken", "count == 0 || (first < 4 && sum > 4)"),
    no_run!("a run with BYTE(3) is declined", "count == 0 || (sum >= 4 && count != 4)"),
    no_run!("three bytes are declined", "count == 0 || count == 3 || sum > 4"),
    no_run!("BYTE(1) with BYTE(2) is declined", "count == 0 || (first, count) == (1, 2) || sum > 4"),
    fault("what is no run gets 5", "decline::RUN", "decline::VALUE"),
    fault("what is no run gets 3", "decline::RUN", "decline::NUMBER"),
    fault(
        "BYTE(0) is taken as the lowest",
        "from_first & up_to_last",
        "(from_first & up_to_last).swap_bytes()",
    ),
    byte_3!("BYTE(0) loads, zeroes and latches", "self.first == 0"),
    byte_3!("only the whole word loads, zeroes and latches", "self.count == 4"),
    byte_3!("every run loads, zeroes and latches", "true"),
    byte_3!(
        "BYTE(3) with BYTE(2) does not load, zero or latch",
        "self.first + self.count == 4 && (self.first, self.count) != (2, 2)"
    ),

    merge!("lacking bytes of a factor count as 0", "2..=9", "run.cut(value)"),
    merge!("lacking bytes of control count as 0", "1", "run.cut(value)"),
    merge!("lacking bytes of ROC enable count as 0", "10", "run.cut(value)"),
    merge!("lacking bytes of the interval count as 0", "11", "run.cut(value)"),
    merge!("lacking bytes of T1-T4 count as 0", "12..=15", "run.cut(value)"),
    merge!("lacking bytes of T5 count as 0", "16", "run.cut(value)"),
    merge!("lacking bytes of assign count as 0", "19", "run.cut(value)"),
    merge!("CSR bytes outside the run are written", "0", "value"),
    merge!("bytes of a setting outside the run are written", "1..=19", "value"),
    merge!("written bytes are or-ed with those stored", "1..=16", "run.cut(value) | kept"),
    merge!(
        "the written bytes stand at the low end of the value",
        "_",
        "run.cut(value << run.bits().trailing_zeros()) | (kept & !run.bits())"
    ),
    merge!(
        "lacking bytes of a factor are those of its counter",
        "2..=9",
        "run.cut(value) | (self.counters[register as usize - 2] & !run.bits())"
    ),
    fault(
        "CSR bytes that lack are those stored",
        "if register == Self::CSR { 0 } else { self.value_of(register).unwrap_or(0) }",
        "self.value_of(register).unwrap_or(0)",
    ),

    before_3!("write: 7 before 3", "Run::new(first, count)?;"),
    before_3!("write: 7 after 4", "if bad && active { self.csr |= csr::WRITE_ERROR; return Err(decline::ACTIVE); }"),
    before_3!("write: 7 after 5", "if bad && !active && !is_taken(number, value) { return Err(decline::VALUE); }"),
    before_3!("write: 7 while active sets the write error", "if bad && active { self.csr |= csr::WRITE_ERROR; }"),
    before_3!("write: 7 only while inactive, else taken and forgotten", "if bad && active { return Ok(()); }"),
    fault(
        "5 is tested before the merging",
        "self.merged(number, run, value)",
        "{ if !is_taken(number, value) { return Err(decline::VALUE); } self.merged(number, run, value) }",
    ),
    fault(
        "5 is tested in the whole word only",
        "!is_taken(number, value)",
        "run.bits() == u32::MAX && !is_taken(number, value)",
    ),
    fault(
        "a run wholly outside a narrow register gets 5",
        "!is_taken(number, value)",
        "run.bits() & TAKEN_BITS[number as usize] == 0 || !is_taken(number, value)",
    ),
    fault(
        "a run that leaves a narrow register gets 5",
        "!is_taken(number, value)",
        "{
            let leaves = run.bits() & !TAKEN_BITS[number as usize] & 0xFF00_0000 != 0;
            (run.bits() != u32::MAX && leaves) || !is_taken(number, value)
        }",
    ),
    fault(
        "a part is written while active",
        "matches!(number, Self::CONTROL..=Self::T5) && self.is_active()",
        "run.bits() == u32::MAX && matches!(number, Self::CONTROL..=Self::T5) && self.is_active()",
    ),
    fault(
        "a factor is written without BYTE(3) while active",
        "matches!(number, Self::CONTROL..=Self::T5) && self.is_active()",
        "matches!(number, 1..=16) && (run.holds_byte_3() || !matches!(number, 2..=9)) && self.is_active()",
    ),

    load!("every factor write loads", "value"),
    load!("BYTE(0) of a factor loads", "if run.bits() >> 24 != 0 { value } else { self.counters[input] }"),
    load!("only a whole factor write loads", "if run.bits() == u32::MAX { value } else { self.counters[input] }"),
    load!(
        "the written bytes alone are loaded",
        "if run.holds_byte_3() { run.cut(value) } else { self.counters[input] }"
    ),
    load!(
        "a counter above its new factor is cut to it",
        "if run.holds_byte_3() { value } else { self.counters[input].min(value) }"
    ),
    load!(
        "the bytes of a factor are written into its counter",
        "(self.counters[input] & !run.bits()) | run.cut(value)"
    ),
];
