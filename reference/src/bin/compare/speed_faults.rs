// The wrong models, twelfth part: queues of one word, the branches' selected moves, the spoiled rule by widths with its
// test for blank branches, the raised lines in one byte, scaler 1 asked only where something counts, and the loop over
// the prescalers.

/// Another state after a branch's move.
macro_rules! after {
    ($says:literal, $wrong:literal) => {
        fault(
            $says,
            "if shows {
            BranchState::Strobe
        } else if finishes {
            BranchState::Drop
        } else if rests {
            BranchState::Rest
        } else {
            self.state
        }",
            $wrong,
        )
    };
}

/// Another place for a loaded word.
macro_rules! loads {
    ($says:literal, $wrong:literal) => {
        fault($says, "u64::from(word) << (8 * self.used)", $wrong)
    };
}

#[rustfmt::skip]
const SPEED_FAULTS: &[Fault] = &[
    fault("spoiled: the queues are left out of the blank test", "queues == 0 && others == 0", "others == 0"),
    fault("spoiled: a blank branch is one with an empty queue", "queues == 0 && others == 0", "queues == 0"),
    fault(
        "spoiled: the states are left out of the blank test",
        "all | branch.used | branch.state as u8",
        "all | branch.used",
    ),
    fault(
        "spoiled: the used places are left out of the blank test",
        "all | branch.used | branch.state as u8",
        "all | branch.state as u8",
    ),
    fault("spoiled: no clause of a branch is tested", "!self.all_blank()", "false"),
    fault("spoiled: eight words are tested as none", "usize::from(self.used & 0xF)", "usize::from(self.used & 0x7)"),
    fault("spoiled: inputs 4 and 8 are left out", "0..4", "0..3"),
    fault(
        "spoiled: a factor is tested only where its counter is 0",
        "self.factors[i] | self.counters[i]",
        "if self.counters[i] == 0 { self.factors[i] } else { self.counters[i] }",
    ),

    fault("a finished word leaves its place empty", "self.queue >> 8", "self.queue & !0xFF"),
    fault("a finished word still takes a place", "u8::from(finishes)", "0"),
    fault(
        "the finished word is the second one",
        "finishes.then_some(self.queue as u8)",
        "finishes.then_some(self.queue.to_le_bytes()[1])",
    ),
    after!(
        "a finished word leaves its branch at Rest",
        "if shows { BranchState::Strobe } else if finishes || rests { BranchState::Rest } else { self.state }"
    ),
    after!(
        "Drop never ends",
        "if shows { BranchState::Strobe } else if finishes { BranchState::Drop } else { self.state }"
    ),
    after!(
        "Drop leads to Strobe where a word is left",
        "if shows || (rests && self.used != 0) { BranchState::Strobe } else if finishes { BranchState::Drop }
        else if rests { BranchState::Rest } else { self.state }"
    ),
    loads!("a load goes into the first place", "u64::from(word)"),
    loads!("a load joins the last word", "u64::from(word) << (8 * self.used.saturating_sub(1))"),

    fault(
        "scaler 1 is not asked where pulses are lost",
        "self.count_passed(passed, answer)",
        "if answer.lost == 0 { self.count_passed(passed, answer) }",
    ),
    fault("only the first of sixteen assign codes counts", "self.assign & !0xF == first", "self.assign == first"),
    fault(
        "an accept drops stale raised lines",
        "self.raised |= raised::LEVEL_1_OK",
        "self.raised = raised::LEVEL_1_OK",
    ),
    fault(
        "Delay ends with one of both accepts",
        "self.raised & raised::BOTH_ACCEPTS == raised::BOTH_ACCEPTS",
        "self.raised & raised::BOTH_ACCEPTS != 0",
    ),

    fault("input 8 has no prescaler", "(counted >> input) & 1 != 0", "((counted & 0x7F) >> input) & 1 != 0"),
    fault(
        "a counter falls without a pulse",
        "if pulse { next } else { counter }",
        "if pulse || above { next } else { counter }",
    ),
    fault("inputs without a pulse are scaled away", "u32::from(pulse & above) << input", "u32::from(above) << input"),
    fault(
        "scaled has the bit of the neighbour",
        "u32::from(pulse & above) << input",
        "u32::from(pulse & above) << (input ^ 1)",
    ),
];
