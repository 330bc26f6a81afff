//! Random lists in which the modes and TEST are written often, with the account kept. [Test.1]–[Test.10]

use super::random::Random;
use super::random_bytes::random_run;
use super::*;
use crate::account::Account;
use std::collections::BTreeMap;

struct List {
    record: Supervisor,
    memory: Vec<u16>,
    account: Account,
    met: BTreeMap<&'static str, u32>,
}

impl List {
    fn meet(&mut self, name: &'static str, is: bool) {
        *self.met.entry(name).or_default() += u32::from(is);
    }

    fn write(&mut self, number: u32, run: (u32, u32), value: u32) {
        let before = self.record.clone();
        let answer = self.record.write_bytes(number, run.0, run.1, value);
        self.account.write_bytes(number, run.0, run.1, value, answer);
        assert_eq!((answer, self.record.clone()), plain_bytes::write(&before, number, run, value));
        let in_test = before.csr & csr::TEST_MODE != 0;
        let is_wiped = number == 0 && answer.is_ok() && before.test != 0 && self.record.test == 0;
        self.meet("something that waits wiped", is_wiped);
        self.meet("TEST declined", number == 21 && answer == Err(5));
        self.meet("control while active in test mode", number == 1 && in_test && before.is_active() && answer.is_ok());
        self.check();
    }

    fn tick(&mut self, random: &mut Random) {
        let (triggers, lines, acknowledges) = (random.mask() & 0xFFF, random.lines(), random.acknowledges());
        let before = self.record.clone();
        let answer = self.record.tick(&self.memory, triggers, lines, acknowledges);
        let slow = plain_test::tick(&before, &self.memory, triggers, lines, acknowledges);
        assert_eq!((answer.unwrap(), self.record.clone()), slow);
        self.account.tick(triggers, lines, &answer);
        let answer = answer.unwrap();
        let (hold, step) = (before.csr & csr::HOLD != 0, before.test & test::SINGLE_STEP != 0);
        let in_test = before.csr & csr::TEST_MODE != 0;
        self.meet("held", hold && !step);
        self.meet("held with pulses stopped", hold && !step && answer.stopped != 0);
        self.meet("held in test mode", hold && !step && in_test);
        self.meet("stepped", hold && step);
        self.meet("accepted in test mode", in_test && answer.accepted != 0);
        self.meet("event in test mode", in_test && matches!(answer.outcome, Outcome::Event(_)));
        self.meet("finished in test mode", in_test && answer.finished != NONE);
        self.meet("dropped", !hold && !in_test && before.test & 0x7F3D != 0);
        self.check();
    }

    fn check(&mut self) {
        assert!(!self.record.is_spoiled() && !plain::is_spoiled(&self.record));
        assert_eq!(self.account.check(&self.record), Ok(()));
        let has = |bits: u32| self.record.csr & bits != 0;
        assert_eq!((self.account.hold, self.account.test_mode), (has(csr::HOLD), has(csr::TEST_MODE)));
        let waits = |bit: u32| self.record.test & bit != 0;
        assert_eq!((self.account.step, self.account.pulse), (waits(test::SINGLE_STEP), waits(test::LEVEL_1_PASS)));
    }

    /// A write that has to do with the modes, or another.
    fn some_write(&mut self, random: &mut Random) {
        let run = if random.once_in(3) { random_run(random) } else { (0, 4) };
        let modes = random.pick(&[csr::HOLD, csr::TEST_MODE, csr::TEST_MODE, csr::MODES]);
        let (number, value) = match random.below(16) {
            0 | 1 => (0, modes),
            2 => (0, csr::HOLD << 16),
            3 => (0, modes << 16),
            4 => (0, csr::GO | modes << 16),
            5 if random.once_in(4) => (0, csr::RESET | random.next() & (csr::MODES | csr::MODES << 16)),
            5 if random.once_in(8) => (0, csr::INITIALIZE),
            6 => (0, csr::GO),
            7 => (Supervisor::CONTROL, random.register_value(Supervisor::CONTROL)),
            8 => (Supervisor::TEST, random.next()),
            9 => (0, csr::GO << 16),
            _ => (Supervisor::TEST, random.test_value()),
        };
        self.write(number, run, value);
    }
}

#[test]
fn the_account_holds_with_the_modes() {
    let mut random = Random(0x2718_2818_2845_9045);
    let mut list = List {
        record: Supervisor::fresh(),
        memory: (0..MEMORY_WORDS).map(|_| random.memory_word()).collect(),
        account: Account::new(),
        met: BTreeMap::new(),
    };
    for call in 0..150_000 {
        if call % 300 == 0 {
            list.write(0, (0, 4), csr::RESET | csr::MODES << 16);
            for number in 1..=16 {
                let value = random.register_value(number);
                list.write(number, (0, 4), value);
            }
            list.write(0, (0, 4), csr::GO);
        }
        if random.once_in(3) {
            list.some_write(&mut random);
        } else {
            list.tick(&mut random);
        }
    }
    println!("{:?}", list.met);
    assert!(list.met.values().all(|&count| count > 100), "{:?}", list.met);
}
