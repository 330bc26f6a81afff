//! Test mode and the held clock a second time, slow: the tick around the one that runs, and the writes that have to do
//! with the modes, bit by bit. [Test.1]–[Test.8b]

use super::*;

fn bit(value: u32, number: u32) -> bool {
    value >> number & 1 == 1
}

/// Which line, by its number, each TEST bit raises in its tick. [Test.2] [Test.3]
const RAISES: [(u32, u32); 7] = [(0, 0), (2, 1), (4, 2), (3, 3), (5, 4), (8, 5), (9, 6)];

pub fn tick(start: &Supervisor, memory: &[u16], triggers: u32, lines: u32, acknowledges: u32) -> (Answer, Supervisor) {
    let (hold, in_test) = (bit(start.csr, 12), bit(start.csr, 13));
    if hold && !bit(start.test, 7) {
        return (held(start, in_test, triggers, lines), start.clone()); // [Test.7a]
    }
    let (mut pulses, mut up, mut high) = (triggers, lines, acknowledges);
    if in_test {
        (pulses, up) = (0, 0);
        for input in 1..=12 {
            // [Test.3]
            pulses += u32::from(bit(start.test, 0) && bit(start.control, input)) << (input - 1);
        }
        for (written, line) in RAISES {
            up += u32::from(bit(start.test, written)) << line;
        }
        if bit(start.test, 14) {
            // [Test.4]
            high = (0..32)
                .filter(|controller| bit(start.test, 10 + controller / 8))
                .map(|controller| 1 << controller)
                .sum();
        }
    }
    let (answer, next) = plain::run(start, memory, pulses, up, high);
    (answer, Supervisor { test: 0, ..next }) // [Test.6]
}

fn held(start: &Supervisor, in_test: bool, triggers: u32, lines: u32) -> Answer {
    let mut stopped = 0;
    for input in 1..=12 {
        let strobed = !bit(start.control, 0) || bit(lines, 0);
        let counts = bit(triggers, input - 1) && bit(start.control, input) && strobed;
        stopped |= u16::from(counts && !in_test) << (input - 1);
    }
    let mut shown = NONE;
    for (word, branch) in shown.iter_mut().zip(&start.branches) {
        if branch.state == BranchState::Strobe {
            *word = Some(words(branch)[0]);
        }
    }
    let lines = plain::lines_out(start);
    let outcome = Outcome::Nothing;
    Answer { stopped, scaled: 0, lost: 0, rejected: 0, accepted: 0, lines, outcome, finished: NONE, shown }
}

/// A write of a whole word to the CSR, control or TEST that gets neither 1 nor 7.
pub fn write(start: &Supervisor, number: u32, value: u32) -> (Result<(), u8>, Supervisor) {
    let mut next = start.clone();
    let unknown: Vec<u32> = match number {
        0 => vec![30], // [Test.10]
        1 => vec![13, 14].into_iter().chain(16..32).collect(),
        _ => [1, 6, 15].into_iter().chain(16..32).collect(), // [Test.5a]
    };
    if number == 1 && plain_state::is_active(start) && !bit(start.csr, 13) {
        next.csr |= 1 << 19; // [Test.2]
        return (Err(4), next);
    }
    if unknown.iter().any(|&b| bit(value, b)) {
        return (Err(5), next);
    }
    match number {
        0 => return (Ok(()), csr_written(start, value)),
        1 => next.control = value,
        _ => {
            for b in 0..15 {
                let waits = bit(value, b) && (b != 7 || bit(start.csr, 12)); // [Test.8a]
                next.test |= u32::from(waits) << b; // [Test.6]
            }
        }
    }
    (Ok(()), next)
}

/// [CSRWrite.1]–[CSRWrite.3] [Test.8b] [Test.10]
fn csr_written(start: &Supervisor, value: u32) -> Supervisor {
    if bit(value, 15) {
        return Supervisor::fresh();
    }
    let mut csr = start.csr;
    for b in 0..14 {
        if bit(value, b) {
            csr |= 1 << b;
        }
        if bit(value, b + 16) {
            csr &= !(1 << b);
        }
    }
    if bit(value, 31) || (!bit(start.csr, 0) && bit(csr, 0)) {
        csr &= 0xFFFF;
    }
    if !bit(value, 14) {
        return Supervisor { csr, ..start.clone() };
    }
    let kept = start.clone();
    Supervisor {
        csr: csr & !0xF,
        control: kept.control,
        factors: kept.factors,
        counters: kept.factors,
        roc_enable: kept.roc_enable,
        sync_interval: kept.sync_interval,
        t1: kept.t1,
        t2: kept.t2,
        t3: kept.t3,
        t4: kept.t4,
        t5: kept.t5,
        latches: kept.latches,
        assign: kept.assign,
        kept_lines: kept.kept_lines,
        latched: kept.latched,
        kept_acknowledges: kept.kept_acknowledges,
        ..Supervisor::fresh()
    }
}
