//! The model, and its faulty copy, as machines that make calls on records of numbers.

use crate::numbers::*;
use crate::{faulty, faulty_account};
use reference::{account, machine};

/// The model, and its faulty copy, in numbers.
macro_rules! model {
    ($name:ident, $machine:ident, $account:ident) => {
        pub struct $name;

        impl $name {
            fn record(n: &Record) -> $machine::Supervisor {
                use $machine::*;
                let word = |place: usize| n[place] as u32;
                let branch = |b: usize| Branch {
                    state: [BranchState::Rest, BranchState::Strobe, BranchState::Drop][n[BRANCH + 3 * b + 2] as usize],
                    queue: n[BRANCH + 3 * b],
                    used: n[BRANCH + 3 * b + 1] as u8,
                };
                Supervisor {
                    csr: word(0),
                    control: word(1),
                    factors: std::array::from_fn(|i| word(2 + i)),
                    counters: std::array::from_fn(|i| word(COUNTERS + i)),
                    roc_enable: word(10),
                    sync_interval: word(11),
                    t1: Count40(word(12)),
                    t2: Count40(word(13)),
                    t3: Count40(word(14)),
                    t4: Count40(word(15)),
                    t5: Count20(word(16)),
                    scalers: [word(17), word(18)],
                    latches: [word(LATCH), word(LATCH + 1)],
                    assign: word(19),
                    main: [
                        MainState::Idle,
                        MainState::Delay,
                        MainState::Wait2,
                        MainState::Wait3,
                        MainState::Front,
                        MainState::Space,
                        MainState::SyncHold,
                        MainState::Clear,
                    ][n[STATE] as usize],
                    age: word(AGE),
                    clear_count: word(CLEAR),
                    class: n[CLASS] as u8,
                    code: n[CODE] as u8,
                    accept_pattern: n[PATTERN] as u8,
                    late: n[LATE] == 1,
                    raised: n[RAISED] as u8,
                    sync_count: word(SYNC_COUNT),
                    user_sync_waiting: n[WAITING] == 1,
                    blind: word(BLIND),
                    kept_lines: word(KEPT_LINES),
                    latched: n[LATCHED] & 1 == 1,
                    kept_acknowledges: word(KEPT_ACKNOWLEDGES),
                    test: word(TEST),
                    branches: std::array::from_fn(branch),
                }
            }

            fn numbers(s: &$machine::Supervisor) -> Record {
                let mut n = FRESH;
                n[0] = s.csr.into();
                n[1] = s.control.into();
                for i in 0..8 {
                    n[2 + i] = s.factors[i].into();
                    n[COUNTERS + i] = s.counters[i].into();
                }
                n[10] = s.roc_enable.into();
                n[11] = s.sync_interval.into();
                n[12] = s.t1.0.into();
                n[13] = s.t2.0.into();
                n[14] = s.t3.0.into();
                n[15] = s.t4.0.into();
                n[16] = s.t5.0.into();
                n[17] = s.scalers[0].into();
                n[18] = s.scalers[1].into();
                n[19] = s.assign.into();
                n[STATE] = s.main as u64;
                n[AGE] = s.age.into();
                n[CLEAR] = s.clear_count.into();
                n[CLASS] = s.class.into();
                n[CODE] = s.code.into();
                n[PATTERN] = s.accept_pattern.into();
                n[RAISED] = s.raised.into();
                n[LATE] = s.late.into();
                n[SYNC_COUNT] = s.sync_count.into();
                n[WAITING] = s.user_sync_waiting.into();
                n[BLIND] = s.blind.into();
                n[KEPT_LINES] = s.kept_lines.into();
                n[LATCHED] = s.latched.into();
                n[KEPT_ACKNOWLEDGES] = s.kept_acknowledges.into();
                n[LATCH] = s.latches[0].into();
                n[LATCH + 1] = s.latches[1].into();
                n[TEST] = s.test.into();
                for (b, branch) in s.branches.iter().enumerate() {
                    n[BRANCH + 3 * b] = branch.queue;
                    n[BRANCH + 3 * b + 1] = branch.used.into();
                    n[BRANCH + 3 * b + 2] = branch.state as u64;
                }
                n
            }

            fn answer(a: &$machine::Answer) -> Reply {
                use $machine::Outcome;
                let slots = |slots: &[Option<u8>; 4]| {
                    slots.iter().rev().fold(0, |n, slot| n << 16 | slot.map_or(0, |word| 256 | u64::from(word)))
                };
                let outcome = match a.outcome {
                    Outcome::Nothing => 0,
                    Outcome::Cleared => 256,
                    Outcome::Event(word) => 512 | u64::from(word),
                    Outcome::Tag(word) => 768 | u64::from(word),
                };
                let pair = |low: u16, high: u16| u64::from(low) | u64::from(high) << 32;
                [
                    0,
                    0,
                    pair(a.stopped, a.scaled),
                    pair(a.lost, a.rejected),
                    pair(a.accepted, a.lines),
                    outcome,
                    slots(&a.finished),
                    slots(&a.shown),
                ]
            }
        }

        impl Machine for $name {
            type Account = $account::Account;

            fn call(record: &mut Record, memory: &mut [u16], call: Call) -> Reply {
                let [kind, a, b, c] = call;
                let (first, count) = unpacked(c);
                let (a, b, c) = (a as u32, b as u32, c as u32);
                let mut s = Self::record(record);
                let plain = |decline: u8, value: u32| [decline.into(), value.into(), 0, 0, 0, 0, 0, 0];
                let reply = match kind {
                    WRITE_REGISTER => s.write_register(a, b).map(|()| plain(0, 0)),
                    READ_REGISTER => s.read_register(a).map(|value| plain(0, value)),
                    WRITE_MEMORY => s.write_memory(memory, a, b as u16).map(|()| plain(0, 0)),
                    READ_MEMORY => s.read_memory(memory, a).map(|value| plain(0, value.into())),
                    TICK => s.tick(memory, a, b, c).map(|answer| Self::answer(&answer)),
                    WRITE_BYTES => s.write_bytes(a, first, count, b).map(|()| plain(0, 0)),
                    READ_BYTES => s.read_bytes(a, first, count).map(|value| plain(0, value)),
                    FILL_MEMORY => s.fill_memory(memory, &words_of(call)).map(|()| plain(0, 0)),
                    _ => {
                        s = $machine::Supervisor::fresh();
                        Ok(plain(0, 0))
                    }
                }
                .unwrap_or_else(|decline| plain(decline, 0));
                *record = Self::numbers(&s);
                reply
            }
        }
    };
}

model!(Model, machine, account);
model!(Faulty, faulty, faulty_account);

impl Model {
    /// The record for the account's check.
    pub fn of(n: &Record) -> machine::Supervisor {
        Self::record(n)
    }
}

/// A tick's reply for the account.
pub fn answer_of(n: &Reply) -> Result<machine::Answer, u8> {
    use machine::Outcome;
    if n[0] != 0 {
        return Err(n[0] as u8);
    }
    let slots = |n: u64| {
        std::array::from_fn(|b| {
            let slot = n >> (16 * b) & 0xFFFF;
            (slot >= 256).then_some(slot as u8)
        })
    };
    Ok(machine::Answer {
        stopped: n[2] as u16,
        scaled: (n[2] >> 32) as u16,
        lost: n[3] as u16,
        rejected: (n[3] >> 32) as u16,
        accepted: n[4] as u16,
        lines: (n[4] >> 32) as u16,
        outcome: match n[5] >> 8 {
            0 => Outcome::Nothing,
            1 => Outcome::Cleared,
            2 => Outcome::Event(n[5] as u8),
            _ => Outcome::Tag(n[5] as u8),
        },
        finished: slots(n[6]),
        shown: slots(n[7]),
    })
}
