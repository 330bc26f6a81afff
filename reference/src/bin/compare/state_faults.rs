// The wrong models, fourth part: STATE and what is kept for it.

/// Another value at a bit of STATE.
macro_rules! bit {
    ($says:literal, $bit:literal, $wrong:literal) => {
        fault($says, "packed(bits)", concat!("{ let mut bits = bits; bits[", $bit, "] = ", $wrong, "; packed(bits) }"))
    };
}

/// Two bits of STATE exchanged.
macro_rules! exchanged {
    ($says:literal, $one:literal, $other:literal) => {
        fault(
            $says,
            "packed(bits)",
            concat!("{ let mut bits = bits; bits.swap(", $one, ", ", $other, "); packed(bits) }"),
        )
    };
}

/// Another value at a bit of each branch `b`: 20 strobe, 21 AND, 22 OR. Its lines are `high`, those enabled `on`.
macro_rules! branch {
    ($says:literal, $bit:literal, $wrong:literal) => {
        fault(
            $says,
            "packed(bits)",
            concat!(
                "{ let mut bits = bits; for b in 0..BRANCHES { let on = self.roc_enable.to_le_bytes()[b]; ",
                "let high = self.kept_acknowledges.to_le_bytes()[b]; let _ = (on, high); ",
                "bits[", $bit, " + 3 * b] = ", $wrong, "; } packed(bits) }"
            ),
        )
    };
}

/// READY, and TS BUSY with it, from another CSR, main, wait, blind mark or kept lines, and with one condition more.
macro_rules! ready {
    ($says:literal, $csr:literal, $main:literal, $waits:literal, $blind:literal, $lines:literal, $more:literal) => {
        fault(
            $says,
            "is_ready(self.csr, self.main, self.user_sync_waiting, blind, self.kept_lines)",
            concat!(
                "{ let (csr, main, waits) = (self.csr, self.main, self.user_sync_waiting); ",
                "let lines = self.kept_lines; let _ = (main, waits, blind, lines); ",
                "is_ready(", $csr, ", ", $main, ", ", $waits, ", ", $blind, ", ", $lines, ") && ", $more, " }"
            ),
        )
    };
}

#[rustfmt::skip]
const STATE_FAULTS: &[Fault] = &[
    exchanged!("STATE: level 2 pass and fail are exchanged", 2, 3),
    exchanged!("STATE: level 3 pass and fail are exchanged", 6, 7),
    exchanged!("STATE: the passes of levels 2 and 3 are exchanged", 2, 6),
    exchanged!("STATE: the fails of levels 2 and 3 are exchanged", 3, 7),
    exchanged!("STATE: the starts are exchanged", 1, 5),
    exchanged!("STATE: the accepts of levels 2 and 3 are exchanged", 4, 8),
    exchanged!("STATE: level 1 OK and level 2 start are exchanged", 0, 1),
    exchanged!("STATE: front busy and inhibit are exchanged", 10, 11),
    exchanged!("STATE: READY and TS BUSY are exchanged", 13, 15),
    exchanged!("STATE: SEQUENCER ACTIVE and ACTIVE are exchanged", 14, 16),
    exchanged!("STATE: empty and full are exchanged", 18, 19),
    fault(
        "STATE: the bits lie from the high end",
        "packed(bits)",
        "packed(bits).reverse_bits()",
    ),
    fault(
        "STATE: the branches lie from the high end",
        "packed(bits)",
        "{ let mut other = bits; for i in 0..12 { other[20 + i] = bits[29 - i / 3 * 3 + i % 3]; } packed(other) }",
    ),
    fault(
        "STATE: branches 2 and 3 are exchanged",
        "packed(bits)",
        "{ let mut bits = bits; for i in 23..26 { bits.swap(i, i + 3); } packed(bits) }",
    ),
    bit!("STATE: bit 0 is some level 1 accept", 0, "self.accept_pattern != 0"),
    bit!("STATE: bit 0 only in the tick of the accept", 0, "bits[0] && self.latched"),
    bit!("STATE: bit 0 in every cycle", 0, "self.main != MainState::Idle"),
    bit!("STATE: level 2 start only in Wait 2", 1, "self.main == MainState::Wait2"),
    bit!("STATE: level 2 pass only in Wait 2", 2, "bits[2] && self.main == MainState::Wait2"),
    bit!("STATE: level 2 pass is hidden by a fail", 2, "bits[2] && !bits[3]"),
    bit!("STATE: level 2 pass is its accept", 2, "bits[4]"),
    bit!("STATE: level 3 start only in Wait 3", 5, "self.main == MainState::Wait3"),
    bit!("STATE: level 3 pass only in Wait 3", 6, "bits[6] && self.main == MainState::Wait3"),
    bit!("STATE: level 3 pass is hidden by a fail", 6, "bits[6] && !bits[7]"),
    bit!("STATE: CLEAR is the state Clear", 9, "self.main == MainState::Clear"),
    bit!("STATE: CLEAR only in the state Clear", 9, "bits[9] && self.main == MainState::Clear"),
    bit!("STATE: inhibit is status 16", 11, "self.csr & super::csr::INHIBIT != 0"),
    bit!("STATE: an overridden inhibit is not shown", 11, "bits[11] && self.csr & super::csr::OVERRIDE_INHIBIT == 0"),
    bit!("STATE: TS BUSY is a cycle", 13, "self.main != MainState::Idle"),
    bit!("STATE: TS BUSY is ACTIVE", 13, "bits[16]"),
    bit!("STATE: TS BUSY is low with GO clear", 13, "bits[13] && self.csr & super::csr::GO != 0"),
    bit!("STATE: SEQUENCER ACTIVE is ACTIVE", 14, "bits[16]"),
    bit!("STATE: SEQUENCER ACTIVE in a user sync's wait", 14, "bits[14] || self.user_sync_waiting"),
    bit!("STATE: SEQUENCER ACTIVE not in Sync hold", 14, "bits[14] && self.main != MainState::SyncHold"),
    bit!(
        "STATE: ACTIVE leaves out the branches", 16,
        "bits[14] || bits[17] || super::sync_wanted(self.csr) || self.csr & super::csr::GO != 0"
    ),
    bit!(
        "STATE: ACTIVE asks for words, not for Rest", 16,
        "bits[14] || bits[17] || super::sync_wanted(self.csr) || self.csr & super::csr::GO != 0 || !bits[18]"
    ),
    bit!("STATE: ACTIVE is a cycle", 16, "bits[14]"),
    bit!("STATE: a blind module is ACTIVE", 16, "bits[16] || self.blind > 0"),
    bit!("STATE: SYNCHRONIZATION only in Sync hold", 17, "self.main == MainState::SyncHold"),
    bit!("STATE: SYNCHRONIZATION only for a user sync", 17, "self.user_sync_waiting"),
    bit!(
        "STATE: SYNCHRONIZATION for a user sync wanted", 17,
        "self.main == MainState::SyncHold || super::sync_wanted(self.csr)"
    ),
    bit!("STATE: SYNCHRONIZATION is status 18", 17, "self.csr & super::csr::SYNC != 0"),
    bit!("STATE: empty asks for Rest", 18, "self.branches.iter().all(|branch| branch.is_quiet())"),
    bit!("STATE: empty if one branch is", 18, "self.branches.iter().any(|branch| branch.used == 0)"),
    bit!("STATE: empty leaves out branch 4", 18, "self.branches[..3].iter().all(|branch| branch.used == 0)"),
    bit!("STATE: empty only outside a cycle", 18, "bits[18] && !bits[14]"),
    bit!("STATE: full only if all are", 19, "(0..BRANCHES).all(|b| !self.is_below_depth(self.csr, b))"),
    bit!("STATE: full leaves the locks out", 19, "(0..BRANCHES).any(|b| !self.is_below_depth(0, b))"),
    bit!(
        "STATE: full leaves the lock of branch 4 out", 19,
        "(0..BRANCHES).any(|b| !self.is_below_depth(self.csr & super::csr::ROC_LOCK, b))"
    ),
    bit!(
        "STATE: full leaves the ROC lock out", 19,
        "(0..BRANCHES).any(|b| !self.is_below_depth(self.csr & super::csr::ROC_LOCK_BRANCH_4, b))"
    ),
    bit!(
        "STATE: the lock of branch 4 is on every branch", 19,
        "(0..BRANCHES).any(|b| !self.is_below_depth(self.csr | (self.csr >> 1 & super::csr::ROC_LOCK), b))"
    ),
    bit!("STATE: full at 7 words", 19, "bits[19] || self.branches.iter().any(|branch| branch.used == 7)"),
    bit!("STATE: full above 8 words", 19, "bits[19] && self.branches.iter().all(|branch| branch.used != 8)"),
    bit!("STATE: full only in Space", 19, "bits[19] && self.main == MainState::Space"),
    branch!("STATE: strobe of a branch that has a word", 20, "self.branches[b].used > 0"),
    branch!("STATE: strobe at Drop too", 20, "self.branches[b].state != BranchState::Rest"),
    branch!("STATE: AND over no controller is low", 21, "bits[21 + 3 * b] && on != 0"),
    branch!("STATE: AND over the whole byte", 21, "high == 0xFF"),
    branch!("STATE: AND asks others to be low", 21, "high == on"),
    branch!("STATE: AND only at the strobe", 21, "bits[21 + 3 * b] && bits[20 + 3 * b]"),
    branch!("STATE: AND shows OR", 21, "bits[22 + 3 * b]"),
    branch!("STATE: OR shows AND", 22, "bits[21 + 3 * b]"),
    branch!("STATE: OR over no controller is high", 22, "bits[22 + 3 * b] || on == 0"),
    branch!("STATE: OR over all lines", 22, "high != 0"),
    fault(
        "STATE: AND and OR are exchanged",
        "packed(bits)",
        "{ let mut bits = bits; for b in 0..BRANCHES { bits.swap(21 + 3 * b, 22 + 3 * b); } packed(bits) }",
    ),
    fault(
        "STATE: the acknowledges lie from the high end",
        "byte(self.kept_acknowledges, b)",
        "byte(self.kept_acknowledges.swap_bytes(), b)",
    ),
    fault(
        "STATE: the controllers enabled lie from the high end",
        "byte(self.roc_enable, b)",
        "byte(self.roc_enable.swap_bytes(), b)",
    ),
    ready!("READY ignores GO", "csr | super::csr::GO", "main", "waits", "blind", "lines", "true"),
    ready!("READY ignores main", "csr", "MainState::Idle", "waits", "blind", "lines", "true"),
    ready!("READY ignores a user sync's wait", "csr", "main", "false", "blind", "lines", "true"),
    ready!(
        "READY ignores that a user sync is wanted",
        "csr & !super::csr::ENABLE_SYNC", "main", "waits", "blind", "lines", "true"
    ),
    ready!("READY ignores the blind count", "csr", "main", "waits", "false", "lines", "true"),
    ready!("READY with a blind count of 1", "csr", "main", "waits", "self.blind > 1", "lines", "true"),
    ready!("READY ignores the lines", "csr", "main", "waits", "blind", "0", "true"),
    ready!("READY ignores front busy", "csr", "main", "waits", "blind", "lines & !line::FRONT_BUSY", "true"),
    ready!("READY ignores inhibit", "csr", "main", "waits", "blind", "lines & !line::INHIBIT", "true"),
    ready!(
        "READY ignores the override of inhibit",
        "csr & !super::csr::OVERRIDE_INHIBIT", "main", "waits", "blind", "lines", "true"
    ),
    ready!(
        "READY asks for room in the branches",
        "csr", "main", "waits", "blind", "lines", "(0..BRANCHES).all(|b| self.is_below_depth(csr, b))"
    ),
    ready!("READY not with odd kept lines", "csr", "main", "waits", "blind", "lines", "lines <= line::ALL"),
    ready!("READY not in the tick of a latch", "csr", "main", "waits", "blind", "lines", "!self.latched"),
];
