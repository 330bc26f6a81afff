//! Random lists of calls with the account kept.

use super::random::Random;
use super::*;
use crate::account::Account;
use std::collections::BTreeSet;

/// What a list of calls has met, so that the test is not about nothing.
#[derive(Default)]
struct Met {
    answers: BTreeSet<(char, u8)>,
    mains: BTreeSet<String>,
    others: BTreeSet<&'static str>,
    events: u32,
    cleared: u32,
    tags: u32,
}

/// The record, its memories, its account; every call is checked.
struct List {
    record: Supervisor,
    memory: Vec<u16>,
    account: Account,
    met: Met,
    calls: u32,
    /// The controllers acknowledge once in so many ticks; slow ones let the queues fill up.
    pace: u32,
}

impl List {
    fn write(&mut self, number: u32, value: u32) {
        let before = self.record.clone();
        let answer = self.record.write_register(number, value);
        self.account.write_register(number, value, answer);
        self.after('W', answer.err(), before, csr::WRITE_ERROR);
    }

    fn read(&mut self, number: u32) {
        let before = self.record.clone();
        let answer = self.record.read_register(number);
        let mut latches = before.latches;
        if let (17 | 18, Ok(count)) = (number, answer) {
            latches[number as usize - 17] = count; // [Bytes.5a]
        }
        let expected = Supervisor { latches, ..before.clone() };
        assert_eq!(self.record, expected, "a read changes nothing but a scaler's latch"); // [Declines.3b]
        if number == Supervisor::STATE {
            assert_eq!(answer, Ok(plain_state::state(&before))); // [State.8a]
        }
        self.after('R', answer.err(), before, 0);
    }

    fn memory_call(&mut self, random: &mut Random) {
        let before = self.record.clone();
        let places = if random.once_in(10) { 5_000 } else { 4_096 };
        let place = random.below(places);
        let mut short = vec![0; random.below(9_000) as usize];
        let other = random.once_in(20);
        let memory = if other { &mut short } else { &mut self.memory };
        if random.flip() {
            let word = random.memory_word();
            let memory_before = memory.clone();
            let answer = self.record.write_memory(memory, place, word);
            match answer {
                Ok(()) => assert_eq!(memory[place as usize], word),
                Err(_) => assert_eq!(*memory, memory_before), // [Declines.1b]
            }
            self.after('M', answer.err(), before, csr::WRITE_ERROR);
        } else {
            let answer = self.record.read_memory(memory, place);
            if let Ok(word) = answer {
                assert_eq!(word, memory[place as usize]);
            }
            self.after('V', answer.err(), before, csr::READ_ERROR);
        }
    }

    fn tick(&mut self, random: &mut Random) {
        let before = self.record.clone();
        let (mut triggers, mut lines) = (random.mask() & 0xFFF, random.lines());
        let acknowledges = if random.once_in(self.pace) { random.acknowledges() } else { 0 };
        if random.once_in(200) {
            triggers = random.next() >> random.below(32);
        }
        if random.once_in(200) {
            lines = random.next() >> random.below(32);
        }
        // Another memory may be lent to each tick, of any length. [Account.2]
        let other = match random.below(100) {
            0 => Some(vec![random.memory_word(); random.below(9_000) as usize]),
            1 => Some(vec![random.memory_word(); MEMORY_WORDS]),
            _ => None,
        };
        let memory = other.as_ref().unwrap_or(&self.memory);
        let answer = self.record.tick(memory, triggers, lines, acknowledges);
        if let Ok(answer) = answer {
            // The quick tick does what the slow one does.
            assert_eq!((answer, self.record.clone()), plain_test::tick(&before, memory, triggers, lines, acknowledges));
            match answer.outcome {
                Outcome::Nothing => {}
                Outcome::Cleared => self.met.cleared += 1,
                Outcome::Event(_) => self.met.events += 1,
                Outcome::Tag(_) => self.met.tags += 1,
            }
            self.met.others.insert(match answer.outcome {
                Outcome::Nothing => "nothing",
                Outcome::Cleared => "cleared",
                Outcome::Tag(_) => "tag",
                Outcome::Event(word) => match (word & word::SYNC != 0, word & word::LATE != 0) {
                    (false, false) => "event",
                    (true, false) => "event with sync",
                    (false, true) => "late event",
                    (true, true) => "late event with sync",
                },
            });
            for (mask, name) in [
                (answer.stopped, "stopped"),
                (answer.scaled, "scaled"),
                (answer.lost, "lost"),
                (answer.rejected, "rejected"),
                (answer.accepted, "accepted"),
            ] {
                if mask != 0 {
                    self.met.others.insert(name);
                }
            }
            if before.blind > 0 && answer.lost != 0 {
                self.met.others.insert("lost while blind");
            }
        }
        self.account.tick(triggers, lines, &answer);
        self.after('T', answer.err(), before, 0);
    }

    /// What holds after every call.
    fn after(&mut self, call: char, declined: Option<u8>, before: Supervisor, error: u32) {
        self.calls += 1;
        self.met.answers.insert((call, declined.unwrap_or(0)));
        self.met.mains.insert(format!("{:?}", self.record.main));
        if self.record.user_sync_waiting {
            self.met.others.insert("user sync waiting");
        }
        if self.record.branches.iter().any(|branch| branch.used == 8) {
            self.met.others.insert("queue full");
        }
        if let Some(number) = declined {
            // [Declines.1b] [Open: A1]
            let csr = if number == 4 { before.csr | error } else { before.csr };
            assert_eq!(self.record, Supervisor { csr, ..before });
        }
        assert!(!self.record.is_spoiled(), "spoiled after call {}", self.calls);
        assert_eq!(self.account.check(&self.record), Ok(()), "after call {}", self.calls);
        assert_eq!(self.account.owed, [true; 12], "every factor write here has BYTE(3)");
        // [Bytes.10a]
    }
}

#[test]
fn the_account_holds_after_each_of_many_calls() {
    const CALLS: u32 = 200_000;
    let mut random = Random(0x9E37_79B9_7F4A_7C15);
    let mut list = List {
        record: Supervisor::fresh(),
        memory: (0..MEMORY_WORDS).map(|_| random.memory_word()).collect(),
        account: Account::new(),
        met: Met::default(),
        calls: 0,
        pace: 1,
    };
    let mut longest = 0;
    let mut until_stop = 0;
    while list.calls < CALLS {
        if until_stop == 0 {
            // Stop by RESET, INITIALIZE or by clearing GO; set up; go on.
            let stop = match random.below(16) {
                0 => csr::INITIALIZE,
                1..=3 => csr::RESET,
                _ => 0x000F_0000,
            } | csr::MODES << 16;
            list.write(Supervisor::CSR, stop);
            list.pace = 1;
            for _ in 0..random.below(80) {
                list.tick(&mut random);
            }
            for number in 1..=19 {
                if random.once_in(3) || stop & csr::INITIALIZE != 0 {
                    let value = random.register_value(number);
                    list.write(number, value);
                }
            }
            for _ in 0..random.below(10) {
                list.memory_call(&mut random);
            }
            let start = random.register_value(Supervisor::CSR) | csr::GO;
            list.write(Supervisor::CSR, start & !csr::INITIALIZE);
            until_stop = random.below(700);
            list.pace = random.pick(&[1, 1, 1, 4, 60]);
        } else {
            until_stop -= 1;
        }
        match random.below(100) {
            0 => {
                let number = if random.flip() { random.below(24) } else { 17 + random.below(2) };
                list.read(number);
                list.read(Supervisor::STATE);
            }
            1 => list.memory_call(&mut random),
            2..=3 => {
                let number = random.below(22);
                let value = random.register_value(number);
                list.write(number, value);
            }
            4..=5 => {
                let value = random.register_value(Supervisor::CSR) & !(csr::INITIALIZE | csr::RESET);
                list.write(Supervisor::CSR, value);
            }
            _ => list.tick(&mut random),
        }
        longest = longest.max(list.account.words_loaded.len());
    }

    let Met { answers, mains, others, events, cleared, tags } = list.met;
    let expected = [
        ('M', 0),
        ('M', 2),
        ('M', 3),
        ('M', 4),
        ('R', 0),
        ('R', 3),
        ('T', 0),
        ('T', 2),
        ('T', 5),
        ('V', 0),
        ('V', 2),
        ('V', 3),
        ('V', 4),
        ('W', 0),
        ('W', 3),
        ('W', 4),
        ('W', 5),
    ];
    assert_eq!(answers, BTreeSet::from(expected));
    assert_eq!(mains.len(), 8, "{mains:?}");
    let expected = [
        "nothing",
        "cleared",
        "tag",
        "event",
        "event with sync",
        "late event",
        "late event with sync",
        "stopped",
        "scaled",
        "lost",
        "rejected",
        "accepted",
        "lost while blind",
        "user sync waiting",
        "queue full",
    ];
    assert_eq!(others, BTreeSet::from(expected));
    println!("{events} events, {cleared} cleared, {tags} tags; at most {longest} words loaded between two starts");
    assert!(events > 4_000 && cleared > 1_000 && tags > 300 && longest > 100);
}
