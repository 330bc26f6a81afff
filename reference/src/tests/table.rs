//! The shipped words, and what the generator fills. [Table.1]–[Table.7]

use super::random::Random;
use super::*;
use crate::account::Account;

pub const SHIPPED_WORDS: [u16; INPUTS] = Supervisor::SHIPPED_WORDS;

/// A word that the generator takes: level 1 OK, one class, any code and accept pattern.
pub fn usable(random: &mut Random) -> u16 {
    random.next() as u16 & 0xFFF0 | random.pick(&[0x3, 0x5, 0x9])
}

pub fn usable_words(random: &mut Random) -> [u16; INPUTS] {
    std::array::from_fn(|_| usable(random))
}

/// A memory filled from these words by a fresh record, in the place of words that are all 1.
#[track_caller]
pub fn filled(words: &[u16; INPUTS]) -> Vec<u16> {
    let mut memory = vec![0xFFFF; MEMORY_WORDS];
    let mut record = Supervisor::fresh();
    assert_eq!(record.fill_memory(&mut memory, words), Ok(()));
    assert_eq!(record, Supervisor::fresh());
    memory
}

fn bit(word: u16, number: usize) -> bool {
    word >> number & 1 == 1
}

/// The rule a second time, bit by bit. [Table.5] [Table.6a]
fn by_bits(words: &[u16; INPUTS], pattern: usize) -> u16 {
    let inputs: Vec<usize> = (1..=12).filter(|i| pattern / (1 << (i - 1)) % 2 == 1).collect();
    let has = |b: usize| match inputs.iter().min() {
        None => false,
        Some(&lowest) if b < 8 => bit(words[lowest - 1], b),
        Some(_) => inputs.iter().any(|i| bit(words[i - 1], b)),
    };
    (0..16).filter(|&b| has(b)).map(|b| 1 << b).sum()
}

#[test]
fn shipped_words_meet_their_rule() {
    for (at, word) in SHIPPED_WORDS.into_iter().enumerate() {
        let i = at as u16 + 1;
        let class = match i {
            1..=4 => 3,
            5..=8 => 2,
            _ => 1,
        };
        assert_eq!(word & 1, 1, "input {i}"); // [Table.2d]
        assert_eq!((word >> 1) & 7, 1 << (class - 1), "input {i}"); // [Table.2a]
        assert_eq!((word >> 4) & 0xF, i, "input {i}"); // [Table.2b]
        assert_eq!(word >> 8, 1 << ((i - 1) % 8), "input {i}"); // [Table.2c]
    }
    assert_eq!([SHIPPED_WORDS[0], SHIPPED_WORDS[4], SHIPPED_WORDS[11]], [0x0119, 0x1055, 0x08C3]);
    // [Table.3]
}

#[test]
fn shipped_table() {
    let memory = filled(&SHIPPED_WORDS);
    assert_eq!(memory[0x000], 0x0000); // [Table.5]
    assert_eq!(memory[0x003], 0x0319); // [Table.6b]
    for (pattern, word) in [
        (0x001, 0x0119),
        (0x010, 0x1055),
        (0x800, 0x08C3),
        (0x101, 0x0119), // inputs 1 and 9 share their accept bit
        (0x100, 0x0193),
        (0x030, 0x3055),
        (0xC00, 0x0CB3),
        (0x808, 0x0849),
        (0x880, 0x8885),
        (0xFFE, 0xFF29),
        (0xFFF, 0xFF19),
    ] {
        assert_eq!(memory[pattern], word, "place {pattern:03X}"); // [Table.6a]
    }
}

#[test]
fn every_place_by_bits() {
    let mut random = Random(0x7AB1_E000_0000_0001);
    let others = (0..40).map(|_| usable_words(&mut random));
    for words in others.chain([SHIPPED_WORDS, [0x0003; 12], [0xFFF9; 12]]) {
        let memory = filled(&words);
        assert_eq!(memory.len(), MEMORY_WORDS); // [Table.4]
        for (pattern, &word) in memory.iter().enumerate() {
            assert_eq!(word, by_bits(&words, pattern), "place {pattern:03X}");
        }
    }
}

#[test]
fn each_word_comes_back_at_its_own_place() {
    let mut random = Random(0x7AB1_E000_0000_0002);
    for round in 0..200 {
        let words = if round == 0 { SHIPPED_WORDS } else { usable_words(&mut random) };
        let memory = filled(&words);
        for (at, word) in words.into_iter().enumerate() {
            assert_eq!(memory[1 << at], word, "input {}", at + 1); // [Table.7]
        }
    }
    // Each class and code, with each accept bit, at every input.
    for code in 0..16 {
        for class in [class_1, class_2, class_3] {
            for at in 0..INPUTS {
                let mut words = SHIPPED_WORDS;
                words[at] = class(code, 1 << (code % 8));
                assert_eq!(filled(&words)[1 << at], words[at], "input {}", at + 1);
            }
        }
    }
}

#[test]
fn the_lowest_input_gives_class_and_code() {
    // Two inputs whose words differ in every bit that may: the other one shows in the accept pattern alone. [Table.6a]
    for low in 0..INPUTS {
        for high in low + 1..INPUTS {
            let mut words = [0x0003; INPUTS];
            (words[low], words[high]) = (0x50F9, 0xA005);
            let memory = filled(&words);
            assert_eq!(memory[1 << low | 1 << high], 0xF0F9, "inputs {} and {}", low + 1, high + 1);
            (words[low], words[high]) = (0xA005, 0x50F9);
            let memory = filled(&words);
            assert_eq!(memory[1 << low | 1 << high], 0xF005, "inputs {} and {}", low + 1, high + 1);
        }
    }
    // An accept bit that two inputs share stays up, and one that none has stays down.
    let mut words = [0x0003; INPUTS];
    (words[2], words[6], words[9]) = (0x1133, 0x2143, 0x0153);
    let memory = filled(&words);
    assert_eq!([memory[0x044], memory[0x204], memory[0x244], memory[0xFFF]], [0x3133, 0x1133, 0x3133, 0x3103]);
}

#[test]
fn a_filled_table_rejects_no_pattern() {
    let mut random = Random(0x7AB1_E000_0000_0003);
    for words in [SHIPPED_WORDS, usable_words(&mut random)] {
        let mut unit = Unit::running(0, &[], 0);
        unit.record.fill_memory(&mut unit.memory, &words).unwrap();
        unit.write(Supervisor::CSR, csr::GO);
        let start = unit.record.clone();
        for pattern in 1..=TRIGGER_BITS {
            unit.record = start.clone();
            let answer = unit.tick(pattern, 0, 0);
            assert_eq!((u32::from(answer.accepted), answer.rejected), (pattern, 0), "{pattern:03X}"); // [Table.6a]
            let lowest = words[pattern.trailing_zeros() as usize];
            assert_eq!(u16::from(unit.record.code), lowest >> 4 & 0xF);
            assert_eq!(1 << unit.record.class, lowest & 0xE);
            assert_eq!(answer.lines & 0xFF00, by_bits(&words, pattern as usize) & 0xFF00);
        }
    }
}

#[test]
fn shipped_events() {
    // By input: the class shows in where main goes, the code in the word. [Table.2a] [Table.2b]
    for at in 0..INPUTS {
        let mut unit = Unit::running(0, &[], 0);
        unit.record.fill_memory(&mut unit.memory, &SHIPPED_WORDS).unwrap();
        unit.write(Supervisor::CSR, csr::GO);
        let answer = unit.tick(1 << at, 0, 0);
        let lines = if at < 8 { 0x3 } else { 0x1 };
        assert_eq!(answer.lines, 0x100 << (at % 8) | lines); // [Table.2c]
        assert_eq!(unit.record.class, [3, 2, 1][at / 4]);
        let mut outcomes = (0..4).map(|_| unit.tick(0, line::LEVEL_2_PASS | line::LEVEL_3_PASS, 0).outcome);
        let loaded = outcomes.find(|&outcome| outcome != Outcome::Nothing);
        assert_eq!(loaded, Some(Outcome::Event(at as u8 + 1)));
    }
}

#[test]
fn filling_again() {
    let mut random = Random(0x7AB1_E000_0000_0004);
    let mut memory = filled(&usable_words(&mut random));
    let mut record = Supervisor::fresh();
    for _ in 0..20 {
        let words = usable_words(&mut random);
        for _ in 0..2 {
            assert_eq!(record.fill_memory(&mut memory, &words), Ok(()));
            assert_eq!(memory, filled(&words), "what stood before shows nowhere");
            // [Table.4]
        }
    }
    assert_eq!(record.write_memory(&mut memory, 0, 0x1234), Ok(()));
    assert_eq!(record.fill_memory(&mut memory, &SHIPPED_WORDS), Ok(()));
    assert_eq!(memory, filled(&SHIPPED_WORDS), "place 0 too"); // [Table.5]
}

#[test]
fn a_filled_memory_is_read_and_written_as_ever() {
    let mut unit = Unit::fresh(0xFFFF);
    unit.record.fill_memory(&mut unit.memory, &SHIPPED_WORDS).unwrap();
    for (place, word) in [(0x000, 0x0000), (0x003, 0x0319), (0x400, 0x04B3), (0xFFF, 0xFF19)] {
        assert_eq!(unit.record.read_memory(&unit.memory, place), Ok(word));
    }
    assert_eq!(unit.record.write_memory(&mut unit.memory, 0x003, 0x0001), Ok(()));
    let mut expected = filled(&SHIPPED_WORDS);
    expected[3] = 0x0001;
    assert_eq!(unit.memory, expected);
}

#[test]
fn nothing_of_record_and_account_changes() {
    // Settings, counters, scalers, latches, kept lines, what waits, modes and status bits all stand. [Table.4]
    let mut unit = Unit::running(class_1(5, 1), &[(Supervisor::FACTOR_8, 7)], csr::GO);
    let mut account = Account::new();
    account.write_register(Supervisor::CONTROL, ALL_ENABLED, Ok(()));
    account.write_register(Supervisor::FACTOR_8, 7, Ok(()));
    account.write_register(Supervisor::CSR, csr::GO, Ok(()));
    for triggers in [0x081, 0x080, 0, 0, 0, 0, 0, 0, 0, 0] {
        let answer = unit.record.tick(&unit.memory, triggers, line::INHIBIT * u32::from(triggers == 0), 0);
        account.tick(triggers, line::INHIBIT * u32::from(triggers == 0), &answer);
    }
    unit.read(Supervisor::SCALER_0);
    for value in [csr::GO << 16, csr::MODES] {
        unit.write(Supervisor::CSR, value);
        account.write_register(Supervisor::CSR, value, Ok(()));
    }
    unit.write(Supervisor::TEST, test::LEVEL_1_PASS | test::SINGLE_STEP);
    account.write_register(Supervisor::TEST, test::LEVEL_1_PASS | test::SINGLE_STEP, Ok(()));
    let (before, kept) = (unit.record.clone(), account.clone());
    assert!(!before.is_active() && before.scalers[0] == 1 && before.test != 0 && unit.has(csr::INHIBIT | csr::MODES));
    assert_eq!(unit.record.fill_memory(&mut unit.memory, &SHIPPED_WORDS), Ok(()));
    assert_eq!(unit.record, before);
    assert_eq!(account.check(&unit.record), Ok(()));
    assert_eq!(account, kept);
    assert_eq!(unit.memory, filled(&SHIPPED_WORDS));
}
