// The wrong models, third part: the blind time after a rejected pattern.

#[rustfmt::skip]
const REQUEST_FAULTS: &[Fault] = &[
    fault(
        "blind for one tick",
        "self.blind = Self::BLIND_TICKS",
        "self.blind = Self::BLIND_TICKS - 1",
    ),
    fault(
        "blind for three ticks",
        "self.blind = Self::BLIND_TICKS",
        "self.blind = Self::BLIND_TICKS + 1",
    ),
    fault(
        "ready while blind",
        "!blind",
        "true",
    ),
    fault(
        "ready sees the blind count after its fall",
        "is_ready(self.csr, self.main, self.user_sync_waiting, blind, lines)",
        "is_ready(self.csr, self.main, self.user_sync_waiting, self.blind > 0, lines)",
    ),
    fault(
        "blind for ever",
        "self.blind.saturating_sub(1)",
        "self.blind",
    ),
    fault(
        "the blind count falls only with GO",
        "self.blind.saturating_sub(1)",
        "self.blind.saturating_sub(u32::from(self.csr & csr::GO != 0))",
    ),
    fault(
        "the blind count falls only at Idle",
        "self.blind.saturating_sub(1)",
        "self.blind.saturating_sub(u32::from(self.main == MainState::Idle))",
    ),
    fault(
        "the blind count falls only where a pulse passes",
        "self.take_pulses(memory, triggers, lines, answer)",
        "{
            let before = self.blind;
            self.take_pulses(memory, triggers, lines, answer);
            if answer.lost | answer.rejected | answer.accepted == 0 { self.blind = before }
        }",
    ),
    fault(
        "a tick declined with 5 lowers the blind count",
        "triggers > TRIGGER_BITS || lines > line::ALL",
        "{ let bad = triggers > TRIGGER_BITS || lines > line::ALL; self.blind -= self.blind.min(bad.into()); bad }",
    ),
    fault(
        "a pulse lost while blind starts the count again",
        "answer.lost = passed as u16",
        "answer.lost = passed as u16; if blind { self.blind = 2 }",
    ),
    fault(
        "every lost pulse starts the blind count",
        "answer.lost = passed as u16",
        "answer.lost = passed as u16; self.blind = 2",
    ),
    fault(
        "an accepted pattern starts the blind count too",
        "answer.accepted = passed as u16",
        "answer.accepted = passed as u16; self.blind = 2",
    ),
    fault(
        "pulses are stopped while blind",
        "self.csr & csr::GO == 0 && self.control & control::OPEN_PRESCALES == 0",
        "blind || (self.csr & csr::GO == 0 && self.control & control::OPEN_PRESCALES == 0)",
    ),
    fault(
        "the prescalers stand still while blind",
        "self.prescale(counted)",
        "if blind { 0 } else { self.prescale(counted) }",
    ),
    fault(
        "a tag does not load while blind",
        "self.take_pulses(memory, triggers, lines, answer)",
        "{
            let blind = self.blind > 0;
            self.take_pulses(memory, triggers, lines, answer);
            if blind && start_main == MainState::Idle && !self.user_sync_waiting && super::sync_wanted(start_csr) {
                self.move_branches(acknowledges, answer);
                (self.kept_lines, self.kept_acknowledges, self.test) = (lines, acknowledges, 0);
                self.csr |= (lines >> 6 & 1) << 16;
                answer.lines = Self::lines_out(&*self);
                return;
            }
        }",
    ),
    fault(
        "assign 00 counts no pulse while blind",
        "self.count_passed(passed, answer)",
        "if !(blind && self.assign == 0x00) { self.count_passed(passed, answer) }",
    ),
    fault(
        "assign 01-0C count no pulse while blind",
        "self.count_passed(passed, answer)",
        "if !(blind && matches!(self.assign, 0x01..=0x0C)) { self.count_passed(passed, answer) }",
    ),
    fault(
        "assign 0D counts pulses lost while blind",
        "self.count_passed(passed, answer)",
        "{
            self.count_passed(passed, answer);
            let more = blind && self.assign == 0x0D && answer.lost != 0;
            self.scalers[1] = self.scalers[1].wrapping_add(more.into());
        }",
    ),
    fault(
        "assign 0F counts pulses lost while blind",
        "self.count_passed(passed, answer)",
        "{
            self.count_passed(passed, answer);
            let more = blind && self.assign == 0x0F && answer.lost != 0;
            self.scalers[1] = self.scalers[1].wrapping_add(more.into());
        }",
    ),
    fault(
        "RESET keeps the blind count",
        "self.blind = 0",
        "()",
    ),
    fault(
        "INITIALIZE keeps the blind count",
        "*self = Self::fresh()",
        "*self = Supervisor { blind: self.blind, ..Self::fresh() }",
    ),
    fault(
        "GO rising in a write zeroes the blind count",
        "self.csr = after",
        "(self.csr, self.blind) = (after, if go_rises { 0 } else { self.blind })",
    ),
    fault(
        "a move to Idle zeroes the blind count",
        "self.late = false",
        "(self.late, self.blind) = (false, 0)",
    ),
    fault(
        "spoiled: a blind count of 3 passes",
        "(self.blind > Self::BLIND_TICKS)",
        "(self.blind > Self::BLIND_TICKS + 1)",
    ),
    fault(
        "spoiled: a blind count of 2 does not pass",
        "(self.blind > Self::BLIND_TICKS)",
        "(self.blind >= Self::BLIND_TICKS)",
    ),
    fault(
        "spoiled: a blind count in a cycle does not pass",
        "(self.blind > Self::BLIND_TICKS)",
        "(self.blind > Self::BLIND_TICKS) | ((self.blind > 0) & (self.main != MainState::Idle))",
    ),
    fault(
        "active: a blind module is active",
        "sync_wanted(self.csr)",
        "sync_wanted(self.csr) || self.blind > 0",
    ),
];
