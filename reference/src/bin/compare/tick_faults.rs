// The wrong models, second part: the tick, and what a write to the CSR does.

#[rustfmt::skip]
const TICK_FAULTS: &[Fault] = &[
    fault(
        "tick: lines over 7Fh are taken",
        "triggers > TRIGGER_BITS || lines > line::ALL",
        "triggers > TRIGGER_BITS",
    ),
    fault(
        "status 16 only without the override",
        "self.csr |= csr::INHIBIT",
        "self.csr |= if self.csr & csr::OVERRIDE_INHIBIT == 0 { csr::INHIBIT } else { 0 }",
    ),
    fault(
        "strobe mode is ignored",
        "control::counted(self.control, triggers, lines)",
        "control::counted(self.control & !1, triggers, lines)",
    ),
    fault(
        "OPEN PRESCALES is ignored",
        "self.csr & csr::GO == 0 && self.control & control::OPEN_PRESCALES == 0",
        "self.csr & csr::GO == 0",
    ),
    fault(
        "ready while a user sync is wanted",
        "!sync_wanted(csr)",
        "true",
    ),
    fault(
        "the override of inhibit is ignored",
        "(lines & line::INHIBIT == 0 || csr & csr::OVERRIDE_INHIBIT != 0)",
        "(lines & line::INHIBIT == 0)",
    ),
    fault(
        "the end of a user sync leaves bit 3",
        "self.csr &= !(csr::PAUSE_AND_SYNC | csr::FORCE_SYNC)",
        "self.csr &= !csr::PAUSE_AND_SYNC",
    ),
    fault(
        "a user sync sees main's move of the same tick",
        "self.cycle(start_csr, lines)",
        "{
            let outcome = self.cycle(start_csr, lines);
            if self.main == MainState::Idle { self.user_sync(start_csr) } else { outcome }
        }",
    ),
    fault(
        "a tag is counted by scaler 0",
        "self.count(assign::SYNC);
        Outcome::Tag(word::TAG)",
        "self.count(assign::SYNC); self.scalers[0] = self.scalers[0].wrapping_add(1); Outcome::Tag(word::TAG)",
    ),
    fault("assign 0D counts accepted ones only", "(answer.rejected | answer.accepted) != 0", "answer.accepted > 0"),
    fault(
        "assign 3x leaves out level 3",
        "self.count(assign::LATE_FAIL)",
        "if level == assign::LEVEL_2_FAIL { self.count(assign::LATE_FAIL) }",
    ),
    fault(
        "assign 1x counts a fail that Wait 2 does not act on",
        "self.take_pulses(memory, triggers, lines, answer)",
        "{
            if lines & line::LEVEL_2_FAIL != 0 && start_main != MainState::Wait2 { self.count(0x10) }
            self.take_pulses(memory, triggers, lines, answer)
        }",
    ),
    fault(
        "assign 5x leaves tags out",
        "self.count(assign::SYNC);
        Outcome::Tag(word::TAG)",
        "Outcome::Tag(word::TAG)",
    ),
    fault(
        "a branch moves only while some branch holds a word",
        "load.is_none() && self.all_quiet()",
        "load.is_none() && self.all_empty()",
    ),
    fault(
        "Strobe is raised in the tick that loads an empty branch",
        "self.used > 0",
        "self.used > 0 || load.is_some()",
    ),
    fault(
        "the acknowledges of branches 2 and 3 are exchanged",
        "acknowledges.to_le_bytes()",
        "{ let [one, two, three, four] = acknowledges.to_le_bytes(); [one, three, two, four] }",
    ),
    fault(
        "the acknowledges lie from the high end",
        "acknowledges.to_le_bytes()",
        "acknowledges.to_be_bytes()",
    ),
    fault(
        "the acknowledge of controller 7 is not heard",
        "acknowledges.to_le_bytes()",
        "(acknowledges & 0x7F7F_7F7F).to_le_bytes()",
    ),
    fault(
        "the acknowledges of branch 2 start at bit 4",
        "acknowledges.to_le_bytes()",
        "{ let [one, _, three, four] = acknowledges.to_le_bytes(); [one, (acknowledges >> 4) as u8, three, four] }",
    ),
    fault(
        "ROC enable lies from the high end",
        "self.roc_enable.to_le_bytes()",
        "self.roc_enable.to_be_bytes()",
    ),
    fault(
        "a word is finished with one acknowledge of several",
        "high == enabled",
        "high != 0 || enabled == 0",
    ),
    fault(
        "acknowledges that are not enabled keep a branch at Drop",
        "high == 0",
        "acknowledges == 0",
    ),
    fault(
        "the first pulse after a load of the counter is counted twice",
        "if above { counter - 1 } else { self.factors[input] }",
        "if above { counter - 1 } else { self.factors[input].saturating_sub(1) }",
    ),
    fault(
        "a word with no class is OK",
        "word & 1 == 0 || classes == 0",
        "word & 1 == 0",
    ),
    fault(
        "the highest class bit decides",
        "classes.trailing_zeros() as u8 + 1",
        "(16 - classes.leading_zeros()) as u8",
    ),
    fault(
        "age stops one later",
        "(self.age + 1).min(Self::AGE_LIMIT)",
        "(self.age + 1).min(Self::AGE_LIMIT + 1)",
    ),
    fault(
        "class 2 goes to Wait 3",
        "self.class == 3",
        "self.class >= 2",
    ),
    fault(
        "level 2 accept one tick late",
        "self.age >= self.t2.ticks()",
        "self.age > self.t2.ticks()",
    ),
    fault(
        "level 3 accept by T2",
        "self.age >= self.t3.ticks()",
        "self.age >= self.t2.ticks()",
    ),
    fault(
        "a fail at age 2 x T1 is not late",
        "start_csr & csr::USE_T1 != 0 && self.age >= self.t1.ticks()",
        "start_csr & csr::USE_T1 != 0 && self.age > self.t1.ticks()",
    ),
    fault(
        "T1 is used without bit 6",
        "start_csr & csr::USE_T1 != 0 && self.age >= self.t1.ticks()",
        "self.age >= self.t1.ticks()",
    ),
    fault(
        "a late fail sets no status bit",
        "self.csr |= csr::LATE_FAIL",
        "()",
    ),
    fault(
        "T5 of 0 clears for no tick",
        "self.t5.ticks().max(1)",
        "self.t5.ticks()",
    ),
    fault(
        "Front opens one tick after 2 x T4",
        "self.age < self.t4.ticks()",
        "self.age <= self.t4.ticks()",
    ),
    fault(
        "a sync event comes one event late",
        "self.sync_count + 1 >= self.sync_interval",
        "self.sync_count >= self.sync_interval",
    ),
    fault(
        "a late event's word lacks bit 5",
        "event |= word::LATE",
        "()",
    ),
    fault(
        "full is more than 8 words",
        "self.branches[branch].used < if locked { Self::LOCKED_DEPTH } else { Self::DEPTH }",
        "self.branches[branch].used <= if locked { Self::LOCKED_DEPTH } else { Self::DEPTH }",
    ),
    fault(
        "CSR bit 10 locks branch 1",
        "(branch == BRANCHES - 1 && csr & csr::ROC_LOCK_BRANCH_4 != 0)",
        "(branch == 0 && csr & csr::ROC_LOCK_BRANCH_4 != 0)",
    ),
    fault(
        "the end of Sync hold leaves bit 1",
        "self.csr &= !(csr::PAUSE_ON_NEXT_SYNC | csr::GO)",
        "self.csr &= !csr::GO",
    ),
    fault(
        "a move to Idle leaves the late mark",
        "self.late = false",
        "()",
    ),
    fault(
        "a move to Idle leaves level 2 accept raised",
        "self.raised = 0",
        "self.raised &= raised::LEVEL_2_ACCEPT",
    ),
    fault(
        "CSR write: set wins",
        "(before | set) & !clear",
        "(before & !clear) | set",
    ),
    fault(
        "CSR write: GO set and cleared at once clears the status bits",
        "after & !before & csr::GO != 0",
        "set & !before & csr::GO != 0",
    ),
    fault(
        "CSR write: bit 31 does nothing",
        "go_rises || value & csr::CLEAR_STATUS != 0",
        "go_rises",
    ),
    fault(
        "RESET leaves CSR bits 1-3",
        "self.csr &= !csr::CLEARED_BY_RESET",
        "self.csr &= !csr::GO",
    ),
    fault(
        "RESET loads no counter",
        "self.counters = self.factors",
        "()",
    ),
];
