// The wrong models, tenth part: the held clock and the single step.

/// Another test of what holds a tick.
macro_rules! holds {
    ($says:literal, $wrong:literal) => {
        fault(
            $says,
            "self.csr & csr::HOLD != 0 && !steps",
            concat!(
                "{ let (hold, step) = (self.csr & csr::HOLD != 0, steps); ",
                "let testing = self.csr & csr::TEST_MODE != 0; let _ = (hold, step, testing); ", $wrong, " }"
            ),
        )
    };
}

/// Other pulses stopped by a held tick.
macro_rules! stops {
    ($says:literal, $wrong:literal) => {
        fault(
            $says,
            "if self.csr & csr::TEST_MODE != 0 { 0 } else { counted }",
            concat!(
                "{ let blocked = self.csr & csr::TEST_MODE != 0; let _ = blocked; ",
                $wrong, " }"
            ),
        )
    };
}

/// Something that a held tick does besides.
macro_rules! does {
    ($says:literal, $wrong:literal) => {
        fault(
            $says,
            "self.held(outside)",
            concat!(
                "{ let Input { triggers, lines, acknowledges } = outside; let _ = (triggers, lines, acknowledges); ",
                $wrong, " self.held(outside) }"
            ),
        )
    };
}

/// Something else left of what waits by a tick that ran.
macro_rules! leaves {
    ($says:literal, $wrong:literal) => {
        fault($says, "self.use_up()", $wrong)
    };
}

#[rustfmt::skip]
const HELD_FAULTS: &[Fault] = &[
    holds!("hold does nothing", "false"),
    holds!("a step does nothing", "hold"),
    holds!("every written bit steps", "hold && self.test == 0"),
    holds!("a step needs test mode", "hold && !(step && testing)"),
    holds!("a step only without test mode", "hold && !(step && !testing)"),
    holds!("test mode is never held", "hold && !step && !testing"),
    holds!("only test mode is held", "hold && !step && testing"),
    holds!("hold needs GO", "hold && !step && self.csr & csr::GO != 0"),
    holds!("hold only while active", "hold && !step && self.is_active()"),
    holds!("bit 6 steps", "hold && self.test & 0xC0 == 0"),
    holds!("bit 15 steps", "hold && self.test & 0x8080 == 0"),
    fault("a step is written without hold", "self.csr & csr::HOLD == 0", "false"),
    fault("a step is written only in test mode", "self.csr & csr::HOLD == 0", "self.csr & csr::MODES != csr::MODES"),
    fault("a step is written in either mode", "self.csr & csr::HOLD == 0", "self.csr & csr::MODES == 0"),

    stops!("a held tick stops only with GO clear", "if blocked || self.csr & csr::GO != 0 { 0 } else { counted }"),
    stops!("a held tick stops only with GO set", "if blocked || self.csr & csr::GO == 0 { 0 } else { counted }"),
    stops!("a held tick stops nothing", "0"),
    stops!("held pulses count in test mode", "counted"),
    stops!("held pulses count only in test mode", "if blocked { counted } else { 0 }"),
    stops!("a held tick stops every trigger", "if blocked { 0 } else { outside.triggers }"),
    stops!(
        "a held tick ignores strobe mode",
        "if blocked { 0 } else { control::counted(self.control & !1, outside.triggers, 0) }"
    ),
    stops!(
        "a held tick ignores the enables",
        "if blocked || (self.control & 1 != 0 && outside.lines & 1 == 0) { 0 } else { outside.triggers }"
    ),
    stops!(
        "OPEN PRESCALES stops nothing under hold",
        "if blocked || self.control & control::OPEN_PRESCALES != 0 { 0 } else { counted }"
    ),
    stops!("a held tick stops pulses with a counter at 0 only", "{
            let ready: u32 = (0..8).filter(|&i| self.counters[i] == 0).map(|i| 1 << i).sum();
            if blocked { 0 } else { counted & (0xF00 | ready) }
        }"),
    stops!(
        "written pulses are stopped under hold",
        "match (blocked, self.test & 1) { (true, 0) => 0, (true, _) => self.control >> 1 & 0xFFF, _ => counted }"
    ),
    fault("a held tick gives no lines out", "Self::lines_out(self)", "0"),
    fault("a held tick gives no accept pattern", "Self::lines_out(self)", "(Self::lines_out(self) & 0xFF)"),
    fault("a held tick lowers the clear line", "Self::lines_out(self)", "(Self::lines_out(self) & !0x20)"),
    fault("a held tick shows no word", "self.branches.each_ref().map(Branch::shown)", "[None; BRANCHES]"),
    fault(
        "a held tick shows the first word at Rest too",
        "self.branches.each_ref().map(Branch::shown)",
        "self.branches.each_ref().map(|branch| branch.held().first().copied())",
    ),
    does!("a held tick sets status 16", "self.csr |= (lines >> 6 & 1) << 16;"),
    does!("a held tick ages", "if self.main != MainState::Idle { self.age = (self.age + 1).min(131_070); }"),
    does!("the blind count falls in a held tick", "self.blind -= self.blind.min(1);"),
    does!(
        "c falls in a held tick",
        "if self.main == MainState::Clear { self.clear_count -= self.clear_count.min(1); }"
    ),
    does!("the lines of a held tick are kept", "(self.kept_lines,) = (lines,);"),
    does!("the acknowledges of a held tick are kept", "(self.kept_acknowledges,) = (acknowledges,);"),
    does!("a held tick clears bit 12 of STATE", "self.latched = false;"),
    does!("a held tick uses the pulses up", "self.test &= 0x80;"),
    does!("a held tick in test mode uses the pulses up", "if self.csr & csr::TEST_MODE != 0 { self.test &= 0x80; }"),
    does!("a held tick without test mode drops the pulses", "if self.csr >> 13 & 1 == 0 { self.test &= 0x80; }"),
    does!(
        "a held tick counts for scaler 1",
        "if self.assign == 0 && triggers != 0 { self.scalers[1] = self.scalers[1].wrapping_add(1); }"
    ),
    does!(
        "a held tick moves the prescalers",
        "for i in 0..8 { if triggers >> i & 1 != 0 { self.counters[i] -= self.counters[i].min(1); } }"
    ),
    does!(
        "the branches move under hold",
        "for (b, branch) in self.branches.iter_mut().enumerate() {
            branch.step((self.roc_enable >> (8 * b)) as u8, (acknowledges >> (8 * b)) as u8, None);
        }"
    ),
    does!("hold goes off by a tick", "self.csr &= !csr::HOLD;"),
    fault(
        "a held tick needs no memory",
        "<&[u16; MEMORY_WORDS]>::try_from(memory)",
        "{
            let held = self.csr & csr::HOLD != 0 && self.test & 0x80 == 0;
            let outside = Input { triggers, lines, acknowledges };
            if held && triggers <= TRIGGER_BITS && lines < 0x80 { return Ok(self. held(outside)); }
            <&[u16; MEMORY_WORDS]>::try_from(memory)
        }",
    ),
    fault(
        "a held tick is not declined with 5",
        "triggers > TRIGGER_BITS || lines > line::ALL",
        "(triggers > TRIGGER_BITS || lines > line::ALL) && (self.csr >> 12 & 1 == 0 || self.test & 0x80 != 0)",
    ),
    fault(
        "test mode takes lines over 7Fh",
        "triggers > TRIGGER_BITS || lines > line::ALL",
        "(triggers > TRIGGER_BITS || lines > line::ALL) && self.csr & csr::MODES < csr::TEST_MODE",
    ),
    fault(
        "a tick declined with 1 uses the step up",
        "return Err(decline::SPOILED)",
        "self.test &= !0x80; return Err(decline::SPOILED)",
    ),
    fault(
        "a tick declined with 2 uses the step up",
        "<&[u16; MEMORY_WORDS]>::try_from(memory)",
        "{ if memory.len() != MEMORY_WORDS { self.test &= !0x80 } <&[u16; MEMORY_WORDS]>::try_from(memory) }",
    ),
    fault(
        "a tick declined with 2 uses the pulses up",
        "<&[u16; MEMORY_WORDS]>::try_from(memory)",
        "{ if memory.len() != MEMORY_WORDS { self.test &= 0x80 } <&[u16; MEMORY_WORDS]>::try_from(memory) }",
    ),
    fault(
        "a tick declined with 5 uses the step up",
        "triggers > TRIGGER_BITS || lines > line::ALL",
        "{ let bad = triggers > TRIGGER_BITS || lines > line::ALL; if bad { self.test &= !0x80 } bad }",
    ),
    fault(
        "a tick declined with 5 uses the pulses up",
        "triggers > TRIGGER_BITS || lines > line::ALL",
        "{ let bad = triggers > TRIGGER_BITS || lines > line::ALL; if bad { self.test &= 0x80 } bad }",
    ),
    leaves!("the step is not used up", "self.test &= 0x80"),
    leaves!("the pulses are not used up", "self.test &= !0x80"),
    leaves!(
        "pulses are not dropped without test mode",
        "self.test &= if self.csr & csr::TEST_MODE != 0 { 0 } else { !0x80 }"
    ),
    leaves!("a step is used up only by its own tick", "self.test &= if self.csr & csr::HOLD != 0 { 0 } else { 0x80 }"),
    leaves!("front busy and inhibit stay as levels", "self.test &= 0x0300"),
    leaves!("the acknowledges stay as levels", "self.test &= 0x7C00"),
    leaves!("odd bits stay", "self.test &= 0xFFFF_8042"),
    leaves!("nothing is dropped where both modes are off", "if self.csr & csr::MODES != 0 { self.use_up() }"),
];
