//! Random lists of calls, made while they run: what comes next depends on where the record stands, so that lists go
//! deep. Records are changed between calls too, so that the spoiled rule and records that no list reaches are met.

use crate::byte_calls;
use crate::changes::change;
use crate::numbers::*;
use crate::order_calls;
use crate::profile::Profile;
use crate::random::Random;
use crate::setup;
use crate::table_calls;
use crate::test_calls;
use crate::ticks::tick;
use crate::values::{blind_value, csr_value, number, place, value, word, HABITS};
use reference::machine::{csr, Supervisor, MEMORY_WORDS};

/// STATE is read often: it is where the record's oddities and the latest tick show.
const READ_STATE: Call = [READ_REGISTER, Supervisor::STATE as u64, 0, 0];

/// A step of a list: a call with one of the lent memories, a record put in the place of the one that stands, or two
/// writes in both orders, after which the list goes on from where it stood before them.
#[derive(Clone)]
pub enum Step {
    Call { memory: usize, call: Call },
    Put(Box<Record>),
    Both { memory: usize, writes: [Call; 2] },
}

pub struct Maker {
    pub random: Random,
    /// For pairs of writes alone, so that no other step depends on them.
    pairs: Random,
    /// For fills alone, so that no step before the first of them depends on them.
    fills: Random,
    profile: Profile,
    /// Whether the list has fills.
    has_fills: bool,
    /// Calls that are to come first, last one first.
    queued: Vec<Call>,
    /// The record that was changed, and after how many calls it comes back.
    changed: Option<(Record, u32)>,
    pub length: usize,
}

impl Maker {
    pub fn new(seed: u64) -> Maker {
        let mut random = Random::new(seed);
        let profile = Profile::new(&mut random);
        let length = random.pick(&[30, 100, 300, 600, 600, 2_000]);
        let pairs = Random::new(!seed);
        let mut fills = Random::new(seed ^ table_calls::SEED);
        let has_fills = fills.once_in(3);
        let mut maker = Maker { random, pairs, fills, profile, has_fills, queued: Vec::new(), changed: None, length };
        maker.set_up();
        maker
    }

    /// The lent memories: the one mostly lent, another, and four of other lengths.
    pub fn memories(&mut self) -> Vec<Vec<u16>> {
        let habit = self.random.below(HABITS);
        let mut words = |count: usize| -> Vec<u16> { (0..count).map(|_| word(&mut self.random, habit)).collect() };
        vec![words(MEMORY_WORDS), words(MEMORY_WORDS), vec![], words(1), words(4_095), words(4_097)]
    }

    /// The writes that make a list lively come first.
    fn set_up(&mut self) {
        let writes = setup::writes(&mut self.random);
        self.queued = writes.iter().rev().map(|&(number, value)| [WRITE_REGISTER, number, value.into(), 0]).collect();
    }

    /// The next step, for a record that stands so.
    pub fn step(&mut self, record: &Record) -> Step {
        if let Some((before, left)) = self.changed.take() {
            return self.on_changed(record, before, left);
        }
        if let Some(call) = self.queued.pop() {
            return self.lent(call);
        }
        if self.random.chance(self.profile.changes) {
            let mut next = *record;
            let count = self.random.pick(&[1, 1, 1, 1, 2, 3, 5]);
            for _ in 0..count {
                change(&mut self.random, &mut next);
            }
            let calls = self.random.pick(&[1, 2, 4, 12]);
            self.changed = Some((*record, calls));
            return Step::Put(Box::new(next));
        }
        if record[1] == 0 && self.random.once_in(4) {
            self.set_up();
        }
        let is_stopped = record[0] & u64::from(csr::GO) == 0;
        let in_mode = record[0] & u64::from(csr::MODES) != 0;
        let call = if self.random.once_in(16) {
            READ_STATE
        } else if self.random.chance(self.profile.tests) {
            self.queue(test_calls::calls, record)
        } else if in_mode && self.profile.tests == 0 && self.random.once_in(3) {
            [WRITE_REGISTER, 0, (csr::MODES << csr::CLEAR_SHIFT).into(), 0]
        } else if record[BLIND] > 0 && self.random.once_in(12) {
            self.while_blind()
        } else if is_stopped && self.random.chance(self.profile.restarts) {
            [WRITE_REGISTER, 0, csr::GO.into(), 0]
        } else if self.random.chance(self.profile.others) {
            self.other(record)
        } else {
            self.tick(record)
        };
        self.lent(call)
    }

    /// Now and then two writes for a record that stands so, more often where settings are taken. [Order.2]
    pub fn both(&mut self, record: &Record) -> Option<Step> {
        let of = if is_active(record) { 96 } else { 12 };
        if !self.pairs.once_in(of) {
            return None;
        }
        let memory = if self.pairs.once_in(4) { self.pairs.below(6) as usize } else { 0 };
        Some(Step::Both { memory, writes: order_calls::writes(&mut self.pairs, record) })
    }

    /// In some lists now and then a fill of the memory, more often where it is taken, with calls behind it that show what
    /// was filled. [Table.4]
    pub fn fill(&mut self, record: &Record) -> Option<Step> {
        let odd = record[BLIND] != 0 || record[TEST] != 0 || record[SYNC_COUNT] != 0;
        let of = match (&self.changed, is_active(record)) {
            (Some(_), _) => 40,
            (None, true) => 250,
            (None, false) if odd => 6,
            (None, false) => 30,
        };
        if !self.has_fills || !self.fills.once_in(of) {
            return None;
        }
        let other = self.profile.lengths > 0 && self.fills.once_in(3);
        let memory = if other { self.fills.below(6) as usize } else { 0 };
        let call = fill(&table_calls::words(&mut self.fills));
        if memory == 0 && self.fills.once_in(2) {
            self.queued.extend(table_calls::behind(&mut self.fills, call).into_iter().rev());
        }
        Some(Step::Call { memory, call })
    }

    /// A call on a record that was changed, or the one from before the change put back.
    fn on_changed(&mut self, record: &Record, before: Record, left: u32) -> Step {
        if left == 0 {
            return Step::Put(Box::new(before));
        }
        self.changed = Some((before, left - 1));
        let call = match self.random.below(8) {
            0 | 1 => READ_STATE,
            2..=4 => self.tick(record),
            5 => byte_calls::call(&mut self.random),
            _ => self.other(record),
        };
        self.lent(call)
    }

    /// A write to the CSR and a setting behind it, which is taken where the first has stopped the module.
    fn while_blind(&mut self) -> Call {
        let random = &mut self.random;
        let (factor, value) = (2 + random.below(8), random.below(3));
        self.queued.push([WRITE_REGISTER, factor.into(), value.into(), 0]);
        [WRITE_REGISTER, 0, blind_value(random).into(), 0]
    }

    /// Several calls for a record that stands so; gives the first, the others come next.
    fn queue(&mut self, make: fn(&mut Random, &Record) -> Vec<Call>, record: &Record) -> Call {
        let mut calls = make(&mut self.random, record).into_iter();
        let first = calls.next().expect("it is never empty");
        self.queued.extend(calls.rev());
        first
    }

    fn lent(&mut self, call: Call) -> Step {
        let memory = if self.random.chance(self.profile.lengths) { self.random.below(6) as usize } else { 0 };
        Step::Call { memory, call }
    }

    fn tick(&mut self, record: &Record) -> Call {
        tick(&mut self.random, &self.profile, record)
    }

    /// A call that is no tick.
    fn other(&mut self, record: &Record) -> Call {
        let random = &mut self.random;
        match random.below(24) {
            0..=4 => [WRITE_REGISTER, 0, csr_value(random).into(), 0],
            5..=8 => {
                let number = number(random);
                [WRITE_REGISTER, number.into(), value(random, number).into(), 0]
            }
            9 | 10 => [READ_REGISTER, number(random).into(), 0, 0],
            11 | 12 => {
                let habit = random.below(HABITS);
                [WRITE_MEMORY, place(random).into(), word(random, habit).into(), 0]
            }
            13 | 14 => [READ_MEMORY, place(random).into(), 0, 0],
            15..=21 => byte_calls::call(random),
            22 if random.once_in(3) => self.queue(|random, _| byte_calls::stretch(random), record),
            _ if random.once_in(12) => [MAKE_FRESH, 0, 0, 0],
            _ => self.tick(record),
        }
    }
}
