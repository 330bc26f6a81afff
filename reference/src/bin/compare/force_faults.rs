// The wrong models, ninth part: what is in force in a tick that runs in test mode.

/// Other lines in force in test mode.
macro_rules! lines {
    ($says:literal, $wrong:literal) => {
        fault($says, "written_lines(written)", $wrong)
    };
}

/// A line that its TEST bit does not raise.
macro_rules! low {
    ($says:literal, $bit:literal) => {
        fault(
            concat!("a written ", $says, " raises nothing"),
            "written_lines(written)",
            concat!("written_lines(written & !(1 << ", $bit, "))"),
        )
    };
}

/// Two bits of TEST in each other's place.
macro_rules! swapped {
    ($says:literal, $one:literal, $other:literal) => {
        fault(
            concat!("TEST: ", $says, " are exchanged"),
            "written_lines(written)",
            concat!(
                "{ let other = (written >> ", $one, " ^ written >> ", $other, ") & 1; ",
                "written_lines(written ^ (other << ", $one, " | other << ", $other, ")) }"
            ),
        )
    };
}

/// Other pulses in force in test mode.
macro_rules! pulses {
    ($says:literal, $wrong:literal) => {
        fault($says, "if written & test::LEVEL_1_PASS != 0 { enabled } else { 0 }", $wrong)
    };
}

/// Other acknowledges in force in test mode.
macro_rules! acknowledges {
    ($says:literal, $wrong:literal) => {
        fault(
            $says,
            "if has_acknowledges { written_acknowledges(written) } else { outside.acknowledges }",
            concat!("{ let (high, outer) = (written_acknowledges(written), outside.acknowledges); ",
                "let _ = (high, outer); ", $wrong, " }"),
        )
    };
}

#[rustfmt::skip]
const FORCE_FAULTS: &[Fault] = &[
    pulses!(
        "outside triggers are in force in test mode too",
        "outside.triggers | if written & 1 != 0 { enabled } else { 0 }"
    ),
    pulses!("outside triggers are in force without bit 0", "if written & 1 != 0 { enabled } else { outside.triggers }"),
    pulses!("bit 0 lets the outside triggers in", "if written & 1 != 0 { outside.triggers } else { 0 }"),
    pulses!("bit 0 pulses nothing", "0"),
    pulses!("bit 0 pulses input 1 only", "if written & 1 != 0 { enabled & 1 } else { 0 }"),
    pulses!("bit 0 pulses the lowest input", "if written & 1 != 0 { enabled & enabled.wrapping_neg() } else { 0 }"),
    pulses!("bit 0 pulses inputs 1-8 only", "if written & 1 != 0 { enabled & 0xFF } else { 0 }"),
    pulses!("bit 0 pulses one input less", "if written & 1 != 0 { enabled & 0x7FF } else { 0 }"),
    pulses!("bit 1 pulses", "if written & 3 != 0 { enabled } else { 0 }"),
    pulses!("bit 16 pulses", "if written & 0x1_0001 != 0 { enabled } else { 0 }"),
    fault(
        "bit 0 pulses all twelve inputs",
        "control::counted(self.control, triggers, lines)",
        "{
            let all = self.csr & csr::TEST_MODE != 0 && lines & 1 != 0;
            if all { 0xFFF } else { control::counted(self.control, triggers, lines) }
        }",
    ),
    fault(
        "a control write drops the pulse that waits",
        "self.control = value",
        "(self.control, self.test) = (value, self.test & !1)",
    ),
    fault(
        "written pulses are not prescaled",
        "self.prescale(counted)",
        "if self.csr & csr::TEST_MODE != 0 { 0 } else { self.prescale(counted) }",
    ),
    lines!("all outside lines are in force in test mode too", "written_lines(written) | outside.lines"),
    lines!("the outside strobe is in force in test mode", "written_lines(written) | (outside.lines & line::STROBE)"),
    lines!(
        "the outside level 2 pass is in force in test mode",
        "written_lines(written) | (outside.lines & line::LEVEL_2_PASS)"
    ),
    lines!(
        "the outside level 2 fail is in force in test mode",
        "written_lines(written) | (outside.lines & line::LEVEL_2_FAIL)"
    ),
    lines!(
        "the outside level 3 pass is in force in test mode",
        "written_lines(written) | (outside.lines & line::LEVEL_3_PASS)"
    ),
    lines!(
        "the outside level 3 fail is in force in test mode",
        "written_lines(written) | (outside.lines & line::LEVEL_3_FAIL)"
    ),
    lines!(
        "the outside front busy is in force in test mode",
        "written_lines(written) | (outside.lines & line::FRONT_BUSY)"
    ),
    lines!("the outside inhibit is in force in test mode", "written_lines(written) | (outside.lines & line::INHIBIT)"),
    lines!(
        "the outside lines are in force where nothing waits",
        "if written == 0 { outside.lines } else { written_lines(written) }"
    ),
    lines!("the strobe is low for bit 0", "written_lines(written) & !line::STROBE"),
    lines!("the strobe is high in test mode", "written_lines(written) | line::STROBE"),
    lines!("the strobe is high for every bit", "written_lines(written) | u32::from(written != 0)"),
    low!("level 2 pass", 2),
    low!("level 3 pass", 3),
    low!("level 2 fail", 4),
    low!("level 3 fail", 5),
    low!("front busy", 8),
    low!("inhibit", 9),
    swapped!("level 2 pass and fail", 2, 4),
    swapped!("level 3 pass and fail", 3, 5),
    swapped!("the passes", 2, 3),
    swapped!("the fails", 4, 5),
    swapped!("level 3 pass and level 2 fail", 3, 4),
    swapped!("front busy and inhibit", 8, 9),
    swapped!("front busy and bit 6", 8, 6),
    swapped!("inhibit and the acknowledge of branch 1", 9, 10),
    acknowledges!("bit 14 is ignored", "outer"),
    acknowledges!("bit 14 always", "high"),
    acknowledges!("bit 14 adds to the outside", "if has_acknowledges { high | outer } else { outer }"),
    acknowledges!(
        "an acknowledge bit needs no bit 14",
        "if has_acknowledges || written & 0x3C00 != 0 { high } else { outer }"
    ),
    acknowledges!(
        "bit 14 needs an acknowledge bit",
        "if has_acknowledges && written & 0x3C00 != 0 { high } else { outer }"
    ),
    acknowledges!("bit 15 stands for bit 14", "if written >> 15 & 1 != 0 || has_acknowledges { high } else { outer }"),
    acknowledges!("a written acknowledge is one line", "if has_acknowledges { high & 0x0101_0101 } else { outer }"),
    acknowledges!(
        "a written acknowledge lacks controller 7",
        "if has_acknowledges { high & 0x7F7F_7F7F } else { outer }"
    ),
    acknowledges!(
        "a written acknowledge is as enabled",
        "if has_acknowledges { high & self.roc_enable } else { outer }"
    ),
    acknowledges!(
        "written acknowledges lie from the high end",
        "if has_acknowledges { high.swap_bytes() } else { outer }"
    ),
    acknowledges!(
        "the written acknowledges of branches 2 and 3 are exchanged",
        "if has_acknowledges { high & 0xFF00_00FF | (high & 0xFF00) << 8 | (high >> 8 & 0xFF00) } else { outer }"
    ),
    acknowledges!("outside acknowledges are blocked in test mode", "if has_acknowledges { high } else { 0 }"),
    acknowledges!("test mode acknowledges by itself", "if has_acknowledges { high } else { u32::MAX }"),
    fault(
        "in test mode all controllers count where none is enabled",
        "branch.step(enabled[b], acknowledged[b], load)",
        "{
            let none = self.csr & csr::TEST_MODE != 0 && enabled[b] == 0;
            branch.step(if none { 0xFF } else { enabled[b] }, acknowledged[b], load)
        }",
    ),
    fault(
        "the kept lines are those from outside",
        "self.run(memory, input, &mut answer)",
        "self.run(memory, input, &mut answer); self.kept_lines = outside.lines",
    ),
    fault(
        "the kept acknowledges are those from outside",
        "self.run(memory, input, &mut answer)",
        "self.run(memory, input, &mut answer); self.kept_acknowledges = outside.acknowledges",
    ),
    fault(
        "an outside inhibit sets status 16 in test mode",
        "self.run(memory, input, &mut answer)",
        "self.run(memory, input, &mut answer); self.csr |= (outside.lines >> 6 & 1) << 16",
    ),
    fault(
        "a written inhibit sets no status bit",
        "lines & line::INHIBIT != 0",
        "self.csr & csr::MODES < csr::TEST_MODE && lines >> 6 & 1 != 0",
    ),
    fault("never ready in test mode", "!blind", "!blind && csr & csr::TEST_MODE == 0"),
];
