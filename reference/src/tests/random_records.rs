//! Random records, and how long a tick takes.

use super::random::Random;
use super::*;

/// A record with values mostly within the spoiled rule, most of them such as no list of calls reaches.
pub(super) fn random_record(random: &mut Random) -> Supervisor {
    let mut r = Supervisor::fresh();
    r.csr = random.next() & csr::STORED;
    r.control = (random.next() | random.next()) & control::BITS;
    for i in 0..8 {
        let widest = if i < 4 { Supervisor::WIDE_FACTOR } else { Supervisor::NARROW_FACTOR };
        r.factors[i] = if random.once_in(4) { random.next() & widest } else { random.below(4) };
        // Half of them may be above their factors. [Bytes.9]
        let highest = if random.flip() { r.factors[i] } else { random.pick(&[widest, 6]) };
        r.counters[i] = random.below(highest + 1);
    }
    r.roc_enable = random.mask();
    r.sync_interval = if random.flip() { random.below(4) } else { random.next() & 0xFFFF };
    let mut timer = || if random.flip() { random.below(5) } else { random.next() & 0xFFFF };
    (r.t1, r.t2, r.t3, r.t4) = (Count40(timer()), Count40(timer()), Count40(timer()), Count40(timer()));
    r.t5 = Count20(timer() & 0xFF);
    for i in 0..2 {
        r.scalers[i] = if random.once_in(4) { u32::MAX } else { random.next() };
        r.latches[i] = if random.once_in(4) { r.scalers[i] } else { random.next() };
    }
    r.assign = random.pick(&[0, 1, 8, 9, 12, 13, 14, 15, 0x10, 0x1F, 0x20, 0x2F, 0x30, 0x3F, 0x50, 0x5F]);
    r.main = random.pick(&[
        MainState::Idle,
        MainState::Delay,
        MainState::Wait2,
        MainState::Wait3,
        MainState::Front,
        MainState::Space,
        MainState::SyncHold,
        MainState::Clear,
    ]);
    r.age = if random.flip() { random.below(12) } else { 131_070 - random.below(3) };
    r.clear_count = if random.flip() { random.below(3) } else { random.next() & 0xFF };
    r.class = if r.main == MainState::Wait2 { 2 + random.below(2) as u8 } else { random.below(5) as u8 };
    r.code = random.below(16) as u8;
    r.accept_pattern = random.next() as u8;
    r.late = random.flip();
    // Bits that are no line of main's show nowhere.
    r.raised = random.next() as u8 & random.pick(&[0x1F, 0xFF]);
    r.sync_count = if random.flip() { random.below(4) } else { 65_534 - random.below(3) };
    r.user_sync_waiting = r.main == MainState::Idle && random.flip();
    r.blind = if random.flip() { 0 } else { random.below(3) };
    r.kept_lines = random.next() & random.pick(&[u32::MAX, 0x9F, 0x1F]);
    r.latched = random.flip();
    let any = random.next();
    r.kept_acknowledges = random.pick(&[0, u32::MAX, r.roc_enable, !r.roc_enable, any]);
    // Odd bits that wait do nothing. [Open: T9]
    r.test = random.mask() & random.pick(&[0, 0x7FBD, u32::MAX]);
    let full = r.user_sync_waiting || matches!(r.main, MainState::Space | MainState::SyncHold);
    let all_empty = random.once_in(3);
    for branch in &mut r.branches {
        branch.used = if all_empty { 0 } else { random.below(if full { 9 } else { 8 }) as u8 };
        for place in 0..usize::from(branch.used) {
            set_word(branch, place, random.below(64) as u8);
        }
        let states = [BranchState::Rest, BranchState::Drop, BranchState::Strobe];
        branch.state = random.pick(&states[..if branch.used == 0 { 2 } else { 3 }]);
    }
    r
}

#[test]
fn any_record_that_is_not_spoiled_stays_so() {
    // [Open: A5], reachable or not; and the quick tick and STATE agree with the slow ones.
    let mut random = Random(0x0123_4567_89AB_CDEF);
    let mut memory = vec![0u16; MEMORY_WORDS];
    for _ in 0..60_000 {
        let mut record = random_record(&mut random);
        assert!(!record.is_spoiled() && !plain::is_spoiled(&record));
        let before = record.clone();
        assert_eq!(record.read_register(Supervisor::STATE), Ok(plain_state::state(&before)), "{before:?}");
        assert_eq!(record, before); // STATE's read latches nothing [Declines.3b] [Bytes.5a]
        if random.once_in(4) {
            let number = random.below(22);
            let value = if random.flip() { random.next() & 0xBFFF_7FFF } else { random.register_value(number) };
            let _ = record.write_register(number, value);
            let _ = record.read_register(random.below(21)); // a scaler's too [Bytes.5a]
            let _ = record.read_memory(&memory, 0);
        } else {
            memory[random.below(4_096) as usize] = random.memory_word();
            let (triggers, lines, acknowledges) = (random.mask() & 0xFFF, random.lines(), random.acknowledges());
            let answer = record.tick(&memory, triggers, lines, acknowledges).unwrap();
            let (plain_answer, plain_record) = plain_test::tick(&before, &memory, triggers, lines, acknowledges);
            assert_eq!((answer, &record), (plain_answer, &plain_record), "{before:?}");
        }
        assert!(!record.is_spoiled() && !plain::is_spoiled(&record), "{before:?}");
    }
}

#[test]
fn the_quick_spoiled_test_is_the_slow_one() {
    let mut random = Random(0xFEDC_BA98_7654_3210);
    let memory = vec![0; MEMORY_WORDS];
    let (mut spoiled, mut not) = (0, 0);
    for _ in 0..100_000 {
        let mut r = random_record(&mut random);
        let wild = random.next() >> random.below(32);
        let input = random.below(8) as usize;
        let b = random.below(4) as usize;
        match random.below(25) {
            0 => r.csr = wild,
            1 => r.control = wild,
            2 => r.factors[input] = wild,
            3 => r.counters[input] = wild,
            4 => r.sync_interval = wild,
            5 => r.t1 = Count40(wild),
            6 => r.t2 = Count40(wild),
            7 => r.t3 = Count40(wild),
            8 => r.t4 = Count40(wild),
            9 => r.t5 = Count20(wild),
            10 => r.assign = wild,
            11 => r.code = wild as u8,
            12 => r.class = wild as u8,
            13 => r.age = wild,
            14 => r.clear_count = wild,
            15 => r.sync_count = wild,
            16 => r.branches[b].used = wild as u8,
            17 => set_word(&mut r.branches[b], input, wild as u8),
            18 => r.branches[b].state = BranchState::Strobe,
            19 => r.user_sync_waiting = true,
            20 => r.blind = wild,
            21 => r.kept_lines = wild,
            22 => r.latches = [wild; 2],
            23 => r.test = wild,
            _ => r.main = random.pick(&[MainState::Idle, MainState::Wait2, MainState::Front, MainState::Space]),
        }
        assert_eq!(r.is_spoiled(), plain::is_spoiled(&r), "{r:?}");
        // [Declines.5a]
        let declined = r.clone().tick(&memory, 0, 0, 0).err();
        assert_eq!(declined, r.is_spoiled().then_some(decline::SPOILED), "{r:?}");
        *(if r.is_spoiled() { &mut spoiled } else { &mut not }) += 1;
    }
    assert!(spoiled > 10_000 && not > 10_000, "{spoiled} spoiled, {not} not");
}

/// Not a test of the paper: prints how long a tick takes. Run with `cargo test --release -- --ignored --nocapture`.
#[test]
#[ignore]
fn speed() {
    let mut random = Random(42);
    let inputs: Vec<(u32, u32, u32)> =
        (0..4_096).map(|_| (random.mask() & 0xFFF, random.lines() & !line::INHIBIT, random.acknowledges())).collect();
    for (name, running) in [("idle", false), ("running", true)] {
        let mut unit = Unit::running(class_2(5, 1), &[(Supervisor::ROC_ENABLE, 0x0101_0101)], csr::GO);
        let begin = std::time::Instant::now();
        let mut sum = 0u64;
        const ROUNDS: u32 = 5_000;
        for _ in 0..ROUNDS {
            for &(triggers, lines, acknowledges) in &inputs {
                let triggers = if running { triggers } else { 0 };
                let answer = unit.record.tick(&unit.memory, triggers, lines, acknowledges).unwrap();
                sum += u64::from(answer.lines);
            }
        }
        let ticks = f64::from(ROUNDS) * inputs.len() as f64;
        println!("{name}: {:.1} ns a tick ({sum})", begin.elapsed().as_nanos() as f64 / ticks);
    }
}
