//! What the compared calls met of the generator, and of ticks and reads over a memory that it filled.
//! [Table.4]–[Table.8b]

use crate::numbers::*;
use crate::pair::Pair;
use reference::machine::{csr, Supervisor, INPUTS, MEMORY_WORDS};

const FILLS: [&str; 17] = [
    "fill from the shipped words",
    "fill from other words",
    "fill from words of all three classes",
    "fill with the same word for two inputs",
    "fill with a word that has no accept bit",
    "fill with an accept bit in two words",
    "fill with a word that has all accept bits",
    "fill of a memory that was filled from other words",
    "fill of a memory that was filled from the same words",
    "fill of a filled memory with a place written since",
    "fill under hold",
    "fill in test mode",
    "fill while blind",
    "fill with written pulses waiting",
    "fill with the write error standing",
    "fill with a user sync asked for and sync not enabled",
    "account: fill carried out",
];

const DECLINES: [&str; 22] = [
    "fill declined 1 where 2 would apply too",
    "fill declined 1 where 4 would apply too",
    "fill declined 1 where 8 would apply too",
    "fill declined 2 where 4 would apply too",
    "fill declined 2 where 8 would apply too",
    "fill declined 4 where 8 would apply too",
    "fill declined 2, no memory",
    "fill declined 2, one word",
    "fill declined 2, 4,095 words",
    "fill declined 2, 4,097 words",
    "fill declined 4, the write error not set before",
    "fill declined 4, the write error set before",
    "fill declined 4 with GO",
    "fill declined 4 in a cycle without GO",
    "fill declined 4 for the branches alone",
    "fill declined 4 in test mode",
    "fill declined 8, several bad words",
    "fill declined 8, twelve bad words",
    "fill declined 8, a single bad word 0000h",
    "fill declined 8, a single bad word FFFFh",
    "fill declined 8 over a filled memory",
    "account: fill declined",
];

/// By level 1 OK and the number of classes; the one kind that is taken is left out.
const KINDS_OF_BAD: [(&str, usize); 7] = [
    ("no OK and no class", 0),
    ("no OK and one class", 1),
    ("no OK and two classes", 2),
    ("no OK and three classes", 3),
    ("no class", 4),
    ("two classes", 6),
    ("three classes", 7),
];
const TAKEN: usize = 5;

/// "Above" are the pattern's inputs above its lowest.
const OVER: [&str; 14] = [
    "accepted over a filled memory, one input",
    "accepted over a filled memory, several inputs",
    "accepted over the shipped table, one input",
    "accepted over the shipped table, several inputs",
    "accepted over a filled memory, class 1",
    "accepted over a filled memory, class 2",
    "accepted over a filled memory, class 3",
    "accepted over a filled memory, lower class above",
    "accepted over a filled memory, other code above",
    "accepted over a filled memory, more accept bits above",
    "read of place 0 of a filled memory",
    "read of an input's own place of a filled memory",
    "read of another place of a filled memory",
    "write to a place of a filled memory",
];

/// What a memory was filled from, and the places written since.
#[derive(Clone)]
struct Filled {
    words: [u16; INPUTS],
    written: Vec<u64>,
}

pub struct TableCounts {
    fills: [u64; FILLS.len()],
    declines: [u64; DECLINES.len()],
    /// A single bad word, by kind and by input.
    bad: [[u64; INPUTS]; 8],
    over: [u64; OVER.len()],
    /// Accepted over a filled memory, by the lowest input.
    lowest: [u64; INPUTS],
    /// By memory; none where it was not filled in this list.
    filled: [Option<Filled>; 6],
}

impl TableCounts {
    pub fn new() -> TableCounts {
        TableCounts {
            fills: [0; FILLS.len()],
            declines: [0; DECLINES.len()],
            bad: [[0; INPUTS]; 8],
            over: [0; OVER.len()],
            lowest: [0; INPUTS],
            filled: [const { None }; 6],
        }
    }

    /// The next list has memories of its own.
    pub fn forget(&mut self) {
        self.filled = [const { None }; 6];
    }

    /// A call that both machines answered alike, with the memory lent to it.
    pub fn add<M: Machine>(&mut self, before: &Record, memory: usize, call: Call, reply: &Reply, pair: &Pair<M>) {
        match call[0] {
            FILL_MEMORY if reply[0] == 0 => {
                self.fills[16] += u64::from(pair.account.is_some());
                self.add_fill(before, memory, words_of(call));
            }
            FILL_MEMORY => {
                self.declines[21] += u64::from(pair.account.is_some());
                self.add_decline(before, pair.memories[memory].len(), &words_of(call), reply[0]);
                self.declines[20] += u64::from(reply[0] == 8 && self.filled[memory].is_some());
            }
            TICK | READ_MEMORY | WRITE_MEMORY if reply[0] == 0 => self.add_over(memory, call, reply),
            _ => {}
        }
    }

    fn add_fill(&mut self, before: &Record, memory: usize, words: [u16; INPUTS]) {
        let twice = |is: &dyn Fn(u16, u16) -> bool| (1..INPUTS).any(|b| words[..b].iter().any(|&a| is(a, words[b])));
        let stood = self.filled[memory].take();
        let csr = |bits: u32| before[0] & u64::from(bits) != 0;
        let is = [
            words == Supervisor::SHIPPED_WORDS,
            words != Supervisor::SHIPPED_WORDS,
            [2, 4, 8].iter().all(|&class| words.iter().any(|word| word & class != 0)),
            twice(&|a, b| a == b),
            words.iter().any(|word| word >> 8 == 0),
            twice(&|a, b| a & b & 0xFF00 != 0),
            words.iter().any(|word| word >> 8 == 0xFF),
            stood.as_ref().is_some_and(|stood| stood.words != words),
            stood.as_ref().is_some_and(|stood| stood.words == words),
            stood.is_some_and(|stood| !stood.written.is_empty()),
            csr(csr::HOLD),
            csr(csr::TEST_MODE),
            before[BLIND] > 0,
            before[TEST] != 0,
            csr(csr::WRITE_ERROR),
            csr(csr::PAUSE_AND_SYNC | csr::FORCE_SYNC),
        ];
        count(&mut self.fills, is);
        self.filled[memory] = Some(Filled { words, written: Vec::new() });
    }

    fn add_decline(&mut self, before: &Record, length: usize, words: &[u16; INPUTS], reply: u64) {
        let bad: Vec<usize> = (0..INPUTS).filter(|&at| kind(words[at]) != TAKEN).collect();
        let (active, error) = (is_active(before), before[0] & u64::from(csr::WRITE_ERROR) != 0);
        let go = before[0] & u64::from(csr::GO) != 0;
        let branches_alone = !go && before[STATE] == 0 && before[WAITING] == 0 && before[0] & 0xC == 0;
        let is = [
            reply == 1 && length != MEMORY_WORDS,
            reply == 1 && active,
            reply == 1 && !bad.is_empty(),
            reply == 2 && active,
            reply == 2 && !bad.is_empty(),
            reply == 4 && !bad.is_empty(),
            reply == 2 && length == 0,
            reply == 2 && length == 1,
            reply == 2 && length == 4_095,
            reply == 2 && length == 4_097,
            reply == 4 && !error,
            reply == 4 && error,
            reply == 4 && go,
            reply == 4 && !go && before[STATE] != 0,
            reply == 4 && branches_alone,
            reply == 4 && before[0] & u64::from(csr::TEST_MODE) != 0,
            reply == 8 && bad.len() > 1,
            reply == 8 && bad.len() == INPUTS,
            reply == 8 && bad.len() == 1 && words[bad[0]] == 0,
            reply == 8 && bad.len() == 1 && words[bad[0]] == u16::MAX,
        ];
        count(&mut self.declines, is);
        if let (8, [at]) = (reply, bad.as_slice()) {
            self.bad[kind(words[*at])][*at] += 1;
        }
    }

    /// A tick, a read or a write carried out over a memory that may have been filled.
    fn add_over(&mut self, memory: usize, call: Call, reply: &Reply) {
        let Some(Filled { words, written }) = &mut self.filled[memory] else { return };
        let place = if call[0] == TICK { reply[4] & 0xFFF } else { call[1] };
        let as_filled = !written.contains(&place);
        match call[0] {
            WRITE_MEMORY => {
                written.push(place);
                self.over[13] += 1;
            }
            READ_MEMORY if as_filled => {
                let kind = if place == 0 { 10 } else { 12 - usize::from(place.is_power_of_two()) };
                self.over[kind] += 1;
            }
            TICK if as_filled && place != 0 => {
                let words = *words;
                self.add_accepted(&words, place);
            }
            _ => {}
        }
    }

    fn add_accepted(&mut self, words: &[u16; INPUTS], pattern: u64) {
        let lowest = pattern.trailing_zeros() as usize;
        let word = words[lowest];
        let (one, shipped) = (pattern.is_power_of_two(), *words == Supervisor::SHIPPED_WORDS);
        let higher =
            |is: &dyn Fn(u16) -> bool| (lowest + 1..INPUTS).any(|input| pattern >> input & 1 == 1 && is(words[input]));
        let is = [
            one,
            !one,
            shipped && one,
            shipped && !one,
            word & 0x2 != 0,
            word & 0x4 != 0,
            word & 0x8 != 0,
            higher(&|other| other & 0xE < word & 0xE),
            higher(&|other| other & 0xF0 != word & 0xF0),
            higher(&|other| other & !word & 0xFF00 != 0),
        ];
        count(&mut self.over, is);
        self.lowest[lowest] += 1;
    }

    /// Every name with its count.
    pub fn rows(&self) -> Vec<(String, u64)> {
        let named = |names: &[&str], counts: &[u64]| -> Vec<(String, u64)> {
            names.iter().zip(counts).map(|(name, &count)| (name.to_string(), count)).collect()
        };
        let mut rows = [named(&FILLS, &self.fills), named(&DECLINES, &self.declines)].concat();
        for (name, kind) in KINDS_OF_BAD {
            rows.push((format!("fill declined 8, a single bad word: {name}"), self.bad[kind].iter().sum()));
        }
        for at in 0..INPUTS {
            let each = KINDS_OF_BAD.map(|(_, kind)| self.bad[kind][at]);
            rows.push((format!("fill declined 8, only the word of input {} bad", at + 1), each.iter().sum()));
            let rarest = each.into_iter().min().unwrap_or(0);
            rows.push((format!("the same of input {}, the rarest of {} kinds", at + 1, each.len()), rarest));
        }
        rows.extend(named(&OVER, &self.over));
        for (at, &count) in self.lowest.iter().enumerate() {
            rows.push((format!("accepted over a filled memory, lowest input {}", at + 1), count));
        }
        rows
    }
}

/// Level 1 OK and the number of classes.
fn kind(word: u16) -> usize {
    4 * usize::from(word & 1) + (word >> 1 & 7).count_ones() as usize
}

fn count<const N: usize>(counts: &mut [u64], is: [bool; N]) {
    for (count, is) in counts.iter_mut().zip(is) {
        *count += u64::from(is);
    }
}
