// The wrong models, fifth part: what is kept for STATE, and the calls on register 20.

#[rustfmt::skip]
const KEPT_FAULTS: &[Fault] = &[
    fault(
        "pass and fail are kept until the cycle ends",
        "self.close(lines, acknowledges)",
        "{
            let before = self.kept_lines & 0x1E;
            self.close(lines, acknowledges);
            if start_main != MainState::Idle { self.kept_lines |= before }
        }",
    ),
    fault(
        "a line once high is kept until RESET",
        "self.kept_lines = lines",
        "self.kept_lines |= lines",
    ),
    fault(
        "lines are kept only where something passes",
        "self.close(lines, acknowledges)",
        "{
            let before = self.kept_lines;
            self.close(lines, acknowledges);
            if answer.lost | answer.rejected | answer.accepted == 0 { self.kept_lines = before }
        }",
    ),
    fault(
        "bit 7 of odd kept lines stays",
        "self.kept_lines = lines",
        "self.kept_lines = self.kept_lines & !0x7F | lines",
    ),
    fault(
        "the strobe is not kept",
        "self.kept_lines = lines",
        "self.kept_lines = lines & !1",
    ),
    fault("bit 12 only for accepted patterns", "(answer.accepted | answer.rejected) != 0", "answer.accepted > 0"),
    fault("bit 12 only for rejected patterns", "(answer.accepted | answer.rejected) != 0", "answer.rejected > 0"),
    fault("bit 12 for lost pulses too", "(answer.accepted | answer.rejected) != 0", "passed > 0"),
    fault(
        "bit 12 for every pulse that counts",
        "self.take_pulses(memory, triggers, lines, answer)",
        "{
            self.take_pulses(memory, triggers, lines, answer);
            self.latched = answer.stopped | answer.scaled | answer.lost | answer.rejected | answer.accepted != 0
        }",
    ),
    fault(
        "bit 12 stays until the cycle ends",
        "self.take_pulses(memory, triggers, lines, answer)",
        "{
            let before = self.latched && start_main != MainState::Idle;
            self.take_pulses(memory, triggers, lines, answer);
            self.latched |= before
        }",
    ),
    fault(
        "bit 12 stays for the blind time",
        "self.take_pulses(memory, triggers, lines, answer)",
        "{
            let before = self.latched && self.blind > 0;
            self.take_pulses(memory, triggers, lines, answer);
            self.latched |= before
        }",
    ),
    fault(
        "bit 12 stays until RESET",
        "self.take_pulses(memory, triggers, lines, answer)",
        "{ let before = self.latched; self.take_pulses(memory, triggers, lines, answer); self.latched |= before }",
    ),
    fault(
        "the acknowledges of the tick before are kept",
        "self.kept_acknowledges = acknowledges",
        "{
            static BEFORE: std::sync::atomic::AtomicU32 = std::sync::atomic::AtomicU32::new(0);
            self.kept_acknowledges = BEFORE.swap(acknowledges, std::sync::atomic::Ordering::Relaxed)
        }",
    ),
    fault(
        "acknowledges are kept as enabled in their tick",
        "self.kept_acknowledges = acknowledges",
        "self.kept_acknowledges = acknowledges & self.roc_enable",
    ),
    fault(
        "acknowledges are kept only while a branch is at work",
        "self.kept_acknowledges = acknowledges",
        "if !self.branches.iter().all(|branch| branch.is_quiet()) { self.kept_acknowledges = acknowledges }",
    ),
    fault(
        "acknowledges once high are kept",
        "self.kept_acknowledges = acknowledges",
        "self.kept_acknowledges |= acknowledges",
    ),
    fault(
        "a tick declined with 1 is kept",
        "return Err(decline::SPOILED)",
        "(self.kept_lines, self.kept_acknowledges) = (lines, acknowledges); return Err(decline::SPOILED)",
    ),
    fault(
        "a tick declined with 1 clears bit 12",
        "return Err(decline::SPOILED)",
        "self.latched = false; return Err(decline::SPOILED)",
    ),
    fault(
        "a tick declined with 2 is kept",
        "<&[u16; MEMORY_WORDS]>::try_from(memory)",
        "{
            if memory.len() != MEMORY_WORDS { (self.kept_lines, self.kept_acknowledges) = (lines, acknowledges) }
            <&[u16; MEMORY_WORDS]>::try_from(memory)
        }",
    ),
    fault(
        "a tick declined with 2 clears bit 12",
        "<&[u16; MEMORY_WORDS]>::try_from(memory)",
        "{ self.latched &= memory.len() == MEMORY_WORDS; <&[u16; MEMORY_WORDS]>::try_from(memory) }",
    ),
    fault(
        "the lines of a tick declined with 5 are kept",
        "triggers > TRIGGER_BITS || lines > line::ALL",
        "{
            let bad = triggers > TRIGGER_BITS || lines > line::ALL;
            if bad { (self.kept_lines,) = (lines,) }
            bad
        }",
    ),
    fault(
        "the lines of a tick declined with 5 for its triggers are kept",
        "triggers > TRIGGER_BITS || lines > line::ALL",
        "{
            if triggers > TRIGGER_BITS && lines <= line::ALL { (self.kept_lines,) = (lines,) }
            triggers > TRIGGER_BITS || lines > line::ALL
        }",
    ),
    fault(
        "the acknowledges of a tick declined with 5 are kept",
        "triggers > TRIGGER_BITS || lines > line::ALL",
        "{
            let bad = triggers > TRIGGER_BITS || lines > line::ALL;
            if bad { _ = std::mem::replace(&mut self.kept_acknowledges, acknowledges) }
            bad
        }",
    ),
    fault(
        "a tick declined with 5 clears bit 12",
        "triggers > TRIGGER_BITS || lines > line::ALL",
        "{ let bad = triggers > TRIGGER_BITS || lines > line::ALL; self.latched &= !bad; bad }",
    ),
    fault(
        "RESET clears the kept lines",
        "self.scalers = [0; 2]",
        "(self.scalers, self.kept_lines) = ([0; 2], 0)",
    ),
    fault(
        "RESET clears bit 12",
        "self.scalers = [0; 2]",
        "(self.scalers, self.latched) = ([0; 2], false)",
    ),
    fault(
        "RESET clears the kept acknowledges",
        "self.scalers = [0; 2]",
        "(self.scalers, self.kept_acknowledges) = ([0; 2], 0)",
    ),
    fault(
        "INITIALIZE keeps the kept lines",
        "*self = Self::fresh()",
        "*self = Supervisor { kept_lines: self.kept_lines, ..Self::fresh() }",
    ),
    fault(
        "INITIALIZE keeps bit 12",
        "*self = Self::fresh()",
        "*self = Supervisor { latched: self.latched, ..Self::fresh() }",
    ),
    fault(
        "INITIALIZE keeps the kept acknowledges",
        "*self = Self::fresh()",
        "*self = Supervisor { kept_acknowledges: self.kept_acknowledges, ..Self::fresh() }",
    ),
    fault(
        "GO rising in a write clears bit 12",
        "self.csr = after",
        "(self.csr, self.latched) = (after, self.latched && !go_rises)",
    ),
    fault(
        "a CSR write that clears the status bits clears the kept lines",
        "self.csr = after",
        "(self.csr, self.kept_lines) = (after, if value & csr::CLEAR_STATUS != 0 { 0 } else { self.kept_lines })",
    ),
    fault(
        "a write to ROC enable zeroes the kept acknowledges",
        "self.roc_enable = value",
        "(self.roc_enable, self.kept_acknowledges) = (value, 0)",
    ),
    fault(
        "spoiled: odd kept lines do not pass",
        "(self.clear_count > Self::CLEAR_COUNT_LIMIT)",
        "(self.clear_count > Self::CLEAR_COUNT_LIMIT) | (self.kept_lines > 0x7F)",
    ),
    fault(
        "a write to STATE is taken and forgotten",
        "!is_writable(number)",
        "{ if number == Self::STATE { return Ok(()); } !is_writable(number) }",
    ),
    fault(
        "a write to STATE is taken and stored",
        "!is_writable(number)",
        "{ if number == Self::STATE { self.kept_lines = value; return Ok(()); } !is_writable(number) }",
    ),
    fault(
        "a write to STATE is declined with 4 while active",
        "!is_writable(number)",
        "{ if number == Self::STATE && self.is_active() { return Err(decline::ACTIVE); } !is_writable(number) }",
    ),
    fault(
        "a write to STATE is declined with 5",
        "!is_writable(number)",
        "{ if number == Self::STATE { return Err(decline::VALUE); } !is_writable(number) }",
    ),
    fault(
        "a write to STATE sets the write error",
        "!is_writable(number)",
        "{ if number == Self::STATE { self.csr |= csr::WRITE_ERROR; } !is_writable(number) }",
    ),
    fault(
        "a write to STATE while active sets the write error",
        "!is_writable(number)",
        "{ if number == Self::STATE && self.is_active() { self.csr |= csr::WRITE_ERROR; } !is_writable(number) }",
    ),
    fault(
        "a write to STATE zeroes what is kept",
        "!is_writable(number)",
        "{ if number == Self::STATE { (self.kept_lines, self.latched) = (0, false); } !is_writable(number) }",
    ),
    fault(
        "a read of STATE is declined still",
        "self.value_of(number)",
        "self.value_of(number).filter(|_| number != Self::STATE)",
    ),
    fault(
        "a read of register 21 gives STATE too",
        "self.value_of(number)",
        "self.value_of(if number == 21 { Self::STATE } else { number })",
    ),
    fault(
        "a read of STATE while active is declined with 4",
        "self.value_of(number)",
        "{ if number == Self::STATE && self.is_active() { return Err(decline::ACTIVE); } self.value_of(number) }",
    ),
    fault(
        "a read of STATE clears bit 12",
        "self.value_of(number)",
        "{ let value = self.value_of(number); self.latched &= number != Self::STATE; value }",
    ),
    fault(
        "a read of STATE zeroes the kept lines",
        "self.value_of(number)",
        "{ let value = self.value_of(number); if number == Self::STATE { self.kept_lines = 0 } value }",
    ),
];
