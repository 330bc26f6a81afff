//! Random lists of plain and byte-wise calls with the account kept. [Bytes.10a] [Bytes.10b]

use super::random::Random;
use super::random_bytes::{random_run, random_value};
use super::*;
use crate::account::Account;

/// The CSR bits that load every counter. [Bytes.10a]
const WIPES: u32 = csr::RESET | csr::INITIALIZE;

/// What the list has met of the pass counts.
#[derive(Debug, Default)]
struct Met {
    ended: u32,
    kept: u32,
    changed_back: u32,
    loaded_again: u32,
    differing: u32,
    above: u32,
}

struct List {
    record: Supervisor,
    memory: Vec<u16>,
    account: Account,
    /// A factor write without BYTE(3) was carried out since the start or the latest RESET or INITIALIZE.
    lacking: bool,
    /// The factor that stood where the pass count ceased to be owed.
    former: [u32; 8],
    met: Met,
}

impl List {
    fn write(&mut self, number: u32, run: (u32, u32), value: u32) {
        let (owed, factors) = (self.account.owed, self.account.factors);
        let before = self.record.clone();
        let answer = self.record.write_bytes(number, run.0, run.1, value);
        self.account.write_bytes(number, run.0, run.1, value, answer);
        let byte_3 = run.0.wrapping_add(run.1) == 4;
        match number {
            2..=9 if answer.is_ok() => {
                self.lacking |= !byte_3;
                self.add_factor(number as usize - 2, owed, factors, byte_3);
            }
            0 if answer.is_ok() && value & plain_bytes::bits(run.0, run.1) & WIPES != 0 => self.lacking = false,
            _ => {}
        }
        if let Err(number) = answer {
            let csr = if number == 4 { before.csr | csr::WRITE_ERROR } else { before.csr };
            assert_eq!(self.record, Supervisor { csr, ..before });
        }
        self.check();
    }

    fn add_factor(&mut self, i: usize, owed: [bool; 12], factors: [u32; 12], byte_3: bool) {
        let (is_owed, factor) = (self.account.owed[i], self.account.factors[i]);
        self.met.ended += u32::from(owed[i] && !is_owed);
        self.met.kept += u32::from(owed[i] && is_owed && !byte_3);
        self.met.loaded_again += u32::from(!owed[i] && is_owed);
        self.met.changed_back += u32::from(!owed[i] && !is_owed && factor != factors[i] && factor == self.former[i]);
        if owed[i] {
            self.former[i] = factors[i];
        }
    }

    fn read(&mut self, number: u32, run: (u32, u32)) {
        let before = self.record.clone();
        let answer = self.record.read_bytes(number, run.0, run.1);
        assert_eq!((answer, self.record.clone()), plain_bytes::read(&before, number, run));
        self.check();
    }

    fn tick(&mut self, random: &mut Random) {
        let above = (0..8).any(|i| self.record.counters[i] > self.record.factors[i]);
        let (triggers, lines) = (random.mask() & 0xFFF, random.lines());
        let before = self.record.clone();
        let acknowledges = random.acknowledges();
        let answer = self.record.tick(&self.memory, triggers, lines, acknowledges);
        let slow = plain_test::tick(&before, &self.memory, triggers, lines, acknowledges);
        assert_eq!((answer.unwrap(), self.record.clone()), slow);
        self.met.above += u32::from(above && self.record.counters != before.counters);
        self.account.tick(triggers, lines, &answer);
        self.check();
    }

    fn check(&mut self) {
        assert!(!self.record.is_spoiled() && !plain::is_spoiled(&self.record));
        assert_eq!(self.account.check(&self.record), Ok(()));
        // The account keeps what the registers hold. [Bytes.10b]
        assert_eq!((self.account.control, &self.account.factors[..8]), (self.record.control, &self.record.factors[..]));
        assert!(self.lacking || self.account.owed == [true; 12]); // [Bytes.10a]
        assert_eq!(self.account.owed[8..], [true; 4]);
        for i in 0..8 {
            let is_settled = self.account.inputs[i].is_settled(self.account.factors[i]);
            self.met.differing += u32::from(!is_settled && !self.account.owed[i]);
        }
    }

    /// A stop, settings by bytes and whole with pulses between, and a start.
    fn set_up(&mut self, random: &mut Random) {
        let stop = random.pick(&[0x000F_0000, 0x000F_0000, csr::RESET, csr::INITIALIZE]);
        self.write(Supervisor::CSR, (0, 4), stop | csr::MODES << 16);
        for _ in 0..60 {
            self.tick(random);
        }
        let open = if random.flip() { control::OPEN_PRESCALES } else { 0 };
        self.write(Supervisor::CONTROL, (0, 4), ALL_ENABLED | open);
        let factor = 2 + random.below(8);
        for _ in 0..random.below(30) {
            let number = if random.flip() { factor } else { random.below(18) + 2 };
            let value =
                if random.flip() { random.below(4) | random.below(2) << 8 } else { random_value(random, number) };
            let run = random_run(random);
            self.write(number, run, value);
            for _ in 0..random.below(8) {
                self.tick(random);
            }
        }
        self.write(Supervisor::CSR, (3, 1), csr::GO);
    }
}

#[test]
fn the_account_holds_with_byte_wise_writes() {
    let mut random = Random(0x3141_5926_5358_9793);
    let mut list = List {
        record: Supervisor::fresh(),
        memory: (0..MEMORY_WORDS).map(|_| random.memory_word()).collect(),
        account: Account::new(),
        lacking: false,
        former: [0; 8],
        met: Met::default(),
    };
    for call in 0..120_000 {
        if call % 200 == 0 {
            list.set_up(&mut random);
        }
        let run = random_run(&mut random);
        match random.below(40) {
            0 => {
                let number = random.below(22);
                let value = random_value(&mut random, number);
                list.write(number, run, value);
            }
            1 | 2 => list.read(17 + random.below(2), run),
            3 => list.read(random.below(23), run),
            _ => list.tick(&mut random),
        }
    }
    let Met { ended, kept, changed_back, loaded_again, differing, above } = list.met;
    println!("{:?}", list.met);
    let fewest = [ended, kept, changed_back, loaded_again].into_iter().min();
    assert!(fewest > Some(50) && differing > 1_000 && above > 1_000, "{:?}", list.met);
}
