// The wrong models, seventh part: scalers and latches, reads by bytes, RESET and INITIALIZE by bytes, and counters
// above their factors.

/// Another scaler after its write.
macro_rules! zero {
    ($says:literal, $wrong:literal) => {
        fault($says, "if run.holds_byte_3() { 0 } else { self.scalers[scaler] }", $wrong)
    };
}

/// Another latch after a scaler's read.
macro_rules! latch {
    ($says:literal, $wrong:literal) => {
        fault($says, "if run.holds_byte_3() { self.scalers[scaler] } else { self.latches[scaler] }", $wrong)
    };
}

/// Another answer to a read, or something done besides.
macro_rules! read {
    ($says:literal, $wrong:literal) => {
        fault($says, "Ok(run.cut(value))", $wrong)
    };
}

/// Something done or answered before a read's decline 3.
macro_rules! before_read {
    ($says:literal, $wrong:literal) => {
        fault(
            $says,
            "self.value_of(number)",
            concat!("{ let bad = Run::new(first, count).is_err(); let _ = bad; ", $wrong, " self.value_of(number) }"),
        )
    };
}

/// Another write to the CSR.
macro_rules! csr_write {
    ($says:literal, $wrong:literal) => {
        fault($says, "self.write_csr(value)", $wrong)
    };
}

#[rustfmt::skip]
const LATCH_FAULTS: &[Fault] = &[
    zero!("every scaler write zeroes", "0"),
    zero!("BYTE(0) of a scaler zeroes", "if run.bits() >> 24 != 0 { 0 } else { self.scalers[scaler] }"),
    zero!("a scaler write zeroes its bytes", "self.scalers[scaler] & !run.bits()"),
    zero!("a scaler write without BYTE(3) stores its bytes", "if run.holds_byte_3() { 0 } else { value }"),
    zero!(
        "a scaler write zeroes the latch",
        "if run.holds_byte_3() { self.latches[scaler] = 0; 0 } else { self.scalers[scaler] }"
    ),
    zero!(
        "a scaler write without BYTE(3) zeroes the latch",
        "if run.holds_byte_3() { 0 } else { self.latches[scaler] = 0; self.scalers[scaler] }"
    ),
    zero!(
        "a scaler write latches first",
        "if run.holds_byte_3() { self.latches[scaler] = self.scalers[scaler]; 0 } else { self.scalers[scaler] }"
    ),

    latch!("every scaler read latches", "self.scalers[scaler]"),
    latch!(
        "the plain scaler read gives the latch",
        "if run.holds_byte_3() && run.bits() != u32::MAX { self.scalers[scaler] } else { self.latches[scaler] }"
    ),
    latch!(
        "the plain scaler read latches nothing",
        "{
            if run.bits() == u32::MAX { return self.scalers[scaler]; }
            if run.holds_byte_3() { self.scalers[scaler] } else { self.latches[scaler] }
        }"
    ),
    latch!(
        "a scaler read by a part latches nothing",
        "{
            if run.holds_byte_3() && run.bits() != u32::MAX { return self.scalers[scaler]; }
            if run.holds_byte_3() { self.scalers[scaler] } else { self.latches[scaler] }
        }"
    ),
    latch!(
        "a scaler read without BYTE(3) gives the count",
        "{ if !run.holds_byte_3() { return self.scalers[scaler]; } self.scalers[scaler] }"
    ),
    latch!(
        "BYTE(0) of a scaler latches",
        "if run.bits() >> 24 != 0 { self.scalers[scaler] } else { self.latches[scaler] }"
    ),
    latch!(
        "the latch of the other scaler",
        "{ if run.holds_byte_3() { self.latches[1 - scaler] = self.scalers[scaler]; } self.latches[scaler] }"
    ),
    latch!(
        "a read latches both scalers",
        "{ if run.holds_byte_3() { self.latches = self.scalers; } self.latches[scaler] }"
    ),
    latch!(
        "only the bytes read are latched",
        "{
            let kept = self.latches[scaler] & !run.bits();
            if run.holds_byte_3() { run.cut(self.scalers[scaler]) | kept } else { self.latches[scaler] }
        }"
    ),
    latch!(
        "a scaler read zeroes the scaler",
        "if run.holds_byte_3() { std::mem::take(&mut self.scalers[scaler]) } else { self.latches[scaler] }"
    ),
    latch!(
        "a scaler read without BYTE(3) uses the latch up",
        "{ if !run.holds_byte_3() { return std::mem::take(&mut self.latches[scaler]); } self.scalers[scaler] }"
    ),
    read!("a read gives bytes outside the run", "Ok(value)"),
    read!("a read gives its bytes at the low end", "Ok(run.cut(value) >> run.bits().trailing_zeros())"),
    read!("a CSR read latches", "{ if number == Self::CSR { self.latches = self.scalers; } Ok(run.cut(value)) }"),
    read!("a STATE read latches", "{ if number == Self::STATE { self.latches = self.scalers; } Ok(run.cut(value)) }"),
    read!(
        "a read of assign latches scaler 1",
        "{ if number == Self::ASSIGN { self.latches[1] = self.scalers[1]; } Ok(run.cut(value)) }"
    ),
    before_read!("read: 7 before 3", "Run::new(first, count)?;"),
    before_read!("read: what is no run gives 0", "if bad && number <= Self::STATE { return Ok(0); }"),
    before_read!(
        "read: what is no run gives the whole",
        "if bad { return self.value_of(number).ok_or(decline::NUMBER); }"
    ),
    before_read!(
        "read: what is no run latches",
        "if bad && matches!(number, 17 | 18) { let at = number as usize - 17; self.latches[at] = self.scalers[at]; }"
    ),

    csr_write!(
        "RESET only in the whole word",
        "self.write_csr(if run.bits() == u32::MAX { value } else { value & !csr::RESET })"
    ),
    csr_write!(
        "INITIALIZE only in the whole word",
        "self.write_csr(if run.bits() == u32::MAX { value } else { value & !csr::INITIALIZE })"
    ),
    csr_write!(
        "bit 31 only in the whole word",
        "self.write_csr(if run.bits() == u32::MAX { value } else { value & !csr::CLEAR_STATUS })"
    ),
    csr_write!(
        "RESET only with BYTE(3)",
        "self.write_csr(if run.holds_byte_3() { value } else { value & !csr::RESET })"
    ),
    csr_write!(
        "INITIALIZE only with BYTE(3)",
        "self.write_csr(if run.holds_byte_3() { value } else { value & !csr::INITIALIZE })"
    ),
    csr_write!(
        "RESET without BYTE(3) loads no counter",
        "{
            let keeps = value & (csr::RESET | csr::INITIALIZE) == csr::RESET && !run.holds_byte_3();
            let counters = self.counters;
            self.write_csr(value);
            if keeps { self.counters = counters; }
        }"
    ),
    csr_write!(
        "RESET without BYTE(3) zeroes no scaler",
        "{
            let keeps = value & (csr::RESET | csr::INITIALIZE) == csr::RESET && !run.holds_byte_3();
            let scalers = self.scalers;
            self.write_csr(value);
            if keeps { self.scalers = scalers; }
        }"
    ),
    fault("RESET zeroes the latches", "self.scalers = [0; 2]", "(self.scalers, self.latches) = ([0; 2], [0; 2])"),
    fault(
        "RESET zeroes the latch of scaler 1",
        "self.scalers = [0; 2]",
        "(self.scalers, self.latches[1]) = ([0; 2], 0)",
    ),
    fault(
        "RESET latches the scalers",
        "self.scalers = [0; 2]",
        "(self.latches, self.scalers) = (self.scalers, [0; 2])",
    ),
    fault(
        "INITIALIZE keeps the latches",
        "*self = Self::fresh()",
        "*self = Supervisor { latches: self.latches, ..Self::fresh() }",
    ),

    fault(
        "spoiled: a counter of inputs 1-4 above its factor",
        "self.factors[i] | self.counters[i]",
        "self.factors[i] | self.counters[i] | u32::from(self.counters[i] > self.factors[i]) << 31",
    ),
    fault(
        "spoiled: a counter of inputs 1-4 may have 21 bits",
        "self.factors[i] | self.counters[i]",
        "self.factors[i] | (self.counters[i] & !(1 << 20))",
    ),
    fault(
        "spoiled: a counter of inputs 5-8 above its factor",
        "self.factors[4 + i] | self.counters[4 + i]",
        "self.factors[4 + i] | self.counters[4 + i] | u32::from(self.counters[4 + i] > self.factors[4 + i]) << 31",
    ),
    fault(
        "spoiled: a counter of inputs 5-8 may have 20 bits",
        "self.factors[4 + i] | self.counters[4 + i]",
        "self.factors[4 + i] | (self.counters[4 + i] & !0xF_C000)",
    ),
    fault(
        "spoiled: no counter's width is tested on inputs 5-8",
        "self.factors[4 + i] | self.counters[4 + i]",
        "self.factors[4 + i]",
    ),
    fault(
        "a counter above its factor falls to it",
        "if above { counter - 1 } else { self.factors[input] }",
        "if above { (counter - 1).min(self.factors[input]) } else { self.factors[input] }",
    ),
    fault(
        "a counter above its factor lets pulses pass",
        "counter > 0",
        "counter > 0 && counter <= self.factors[input]",
    ),
];
