//! The tick that runs and the spoiled rule a second time, slow and close to the paper: every test is made on `start`,
//! every change on `next` [Tick.2], input by input and place by place. The quick forms are compared with these.

use super::*;

fn bit(value: u32, number: u32) -> bool {
    value >> number & 1 == 1
}

pub fn is_spoiled(r: &Supervisor) -> bool {
    // [Spoiled.1a]: registers 0–19 in their order.
    let fits = |value: u32, width: u32| u64::from(value) < 1 << width;
    let csr = (0..32).any(|b| bit(r.csr, b) && !(b <= 13 || (16..=20).contains(&b)));
    let control = (0..32).any(|b| bit(r.control, b) && !(b <= 12 || b == 15));
    let factors = (0..8).any(|i| !fits(r.factors[i], if i < 4 { 20 } else { 14 }));
    let timers = [r.t1, r.t2, r.t3, r.t4].iter().any(|t| !fits(t.0, 16)) || !fits(r.t5.0, 8);
    let assign = !(r.assign <= 0x3F || (0x50 <= r.assign && r.assign <= 0x5F));
    let registers = csr || control || factors || !fits(r.sync_interval, 16) || timers || assign;

    let branches = r.branches.iter().any(|branch| {
        let used = usize::from(branch.used);
        let room =
            if r.main == MainState::Space || r.main == MainState::SyncHold || r.user_sync_waiting { 8 } else { 7 };
        (branch.state == BranchState::Strobe && used == 0) // [Spoiled.1d]
            || used > room // [Spoiled.1f]
            || (0..8).any(|place| if place < used { words(branch)[place] > 0x3F } else { words(branch)[place] != 0 })
    });

    registers
        || r.code > 0xF
        || (r.main == MainState::Wait2 && r.class != 2 && r.class != 3)
        || (0..8).any(|i| !fits(r.counters[i], if i < 4 { 20 } else { 14 })) // [Bytes.9]
        || branches
        || r.sync_count > 65_534
        || r.age > 131_070
        || r.clear_count > 255
        || r.blind > 2 // [Blind.3]
        || (r.main != MainState::Idle && r.user_sync_waiting)
}

/// A tick that runs, with what is in force in it; `plain_test` says when and with what. [Test.2] [Test.7a]
pub fn run(start: &Supervisor, memory: &[u16], triggers: u32, lines: u32, acknowledges: u32) -> (Answer, Supervisor) {
    let mut next = start.clone();
    let csr = |b| bit(start.csr, b);
    let line = |b| bit(lines, b);
    let front_busy = line(5);
    let inhibit = line(6);

    // Pulses, input by input. [Pulses.1]–[Pulses.5]
    let (mut stopped, mut scaled, mut passed) = (0u32, 0u32, 0u32);
    for input in 1..=12u32 {
        let mask = 1 << (input - 1);
        if !bit(triggers, input - 1) || !bit(start.control, input) || (bit(start.control, 0) && !line(0)) {
            continue;
        }
        if !csr(0) && !bit(start.control, 15) {
            stopped |= mask;
        } else if input > 8 {
            passed |= mask;
        } else {
            let i = input as usize - 1;
            if start.counters[i] > 0 {
                next.counters[i] = start.counters[i] - 1;
                scaled |= mask;
            } else {
                next.counters[i] = start.factors[i];
                passed |= mask;
            }
        }
    }

    // Ready. [Ready.1]–[Ready.6] [Blind.2] [Blind.4]
    let wanted = (csr(2) || csr(3)) && csr(4);
    let idle = start.main == MainState::Idle;
    let open = !front_busy && (!inhibit || csr(11)) && start.blind == 0;
    let ready = csr(0) && idle && !start.user_sync_waiting && !wanted && open;
    let (mut lost, mut rejected, mut accepted) = (0, 0, 0);
    let latched = ready && passed != 0;
    if latched {
        let word = u32::from(memory[passed as usize]);
        let class = (1..=3).find(|&class| bit(word, class));
        match class {
            Some(class) if bit(word, 0) => {
                accepted = passed;
                next.age = 0;
                next.class = class as u8;
                next.code = (word / 16 % 16) as u8;
                next.accept_pattern = (word / 256) as u8;
                next.raised |= 1 << 0;
                next.main = if class == 1 { MainState::Delay } else { MainState::Wait2 };
                if class != 1 {
                    next.raised |= 1 << 1;
                }
            }
            _ => rejected = passed,
        }
    } else {
        lost = passed;
    }
    next.blind = match start.blind {
        _ if rejected != 0 => 2,
        0 => 0,
        count => count - 1,
    };
    if inhibit {
        next.csr |= 1 << 16;
    }

    (next.kept_lines, next.latched, next.kept_acknowledges) = (lines, latched, acknowledges); // [State.3]

    // Main. [Main.1]–[Main.17]
    let empty = start.branches.iter().all(|branch| branch.used == 0);
    let mut outcome = Outcome::Nothing;
    let mut to_idle = false;
    let (mut level_2_fail, mut level_3_fail, mut late_fail) = (false, false, false);
    if !idle {
        let age = if start.age >= 131_070 { 131_070 } else { start.age + 1 };
        next.age = age;
        let too_young = csr(7) && age < 2 * start.t4.0;
        let front = !front_busy && !too_young;
        let (fail, pass) = match start.main {
            MainState::Wait2 => (line(2), line(1)),
            MainState::Wait3 => (line(4), line(3)),
            _ => (false, false),
        };
        level_2_fail = fail && start.main == MainState::Wait2;
        level_3_fail = fail && start.main == MainState::Wait3;
        if fail {
            if csr(6) && age >= 2 * start.t1.0 {
                late_fail = true;
                next.late = true;
                next.csr |= 1 << 17;
                next.main = MainState::Front;
            } else {
                outcome = Outcome::Cleared;
                next.main = MainState::Clear;
                next.clear_count = if csr(8) && start.t5.0 > 1 { start.t5.0 } else { 1 };
            }
        } else if pass && start.main == MainState::Wait2 {
            next.raised |= 1 << 2;
            if start.class == 2 {
                next.main = MainState::Delay;
            } else {
                next.raised |= 1 << 3;
                next.main = MainState::Wait3;
            }
        } else if pass {
            next.raised |= 1 << 4;
            next.main = MainState::Front;
        }
        match start.main {
            MainState::Delay => {
                if age >= 2 * start.t2.0 {
                    next.raised |= 1 << 2;
                }
                if age >= 2 * start.t3.0 {
                    next.raised |= 1 << 4;
                }
                if is_up(&next, 2) && is_up(&next, 4) {
                    next.main = MainState::Front;
                }
            }
            MainState::Front if front => {
                let mut word = start.code + if start.late { 0x20 } else { 0 };
                next.main = MainState::Space;
                if csr(4) && start.sync_interval > 0 {
                    if start.sync_count + 1 >= start.sync_interval {
                        word += 0x10;
                        next.csr |= 1 << 18;
                        next.main = MainState::SyncHold;
                    } else {
                        next.sync_count = start.sync_count + 1;
                    }
                }
                outcome = Outcome::Event(word);
            }
            MainState::Space => {
                to_idle = (0..4).all(|b| {
                    let depth = if csr(9) || (b == 3 && csr(10)) { 1 } else { 8 };
                    start.branches[b].used < depth
                });
            }
            MainState::SyncHold if empty => {
                to_idle = true;
                next.sync_count = 0;
                if csr(1) {
                    next.csr &= !0b11;
                }
            }
            MainState::Clear if start.clear_count > 0 => next.clear_count = start.clear_count - 1,
            MainState::Clear => to_idle = front,
            _ => {}
        }
    }
    if to_idle {
        next.main = MainState::Idle;
        (next.age, next.clear_count, next.class, next.code, next.accept_pattern, next.late) = (0, 0, 0, 0, 0, false);
        next.raised = 0;
    }

    // User sync. [Usersync.1] [Usersync.2]
    if wanted && idle && !start.user_sync_waiting {
        outcome = Outcome::Tag(0x10);
        next.csr |= 1 << 18;
        next.user_sync_waiting = true;
    }
    if start.user_sync_waiting && empty {
        next.user_sync_waiting = false;
        next.sync_count = 0;
        next.csr &= if csr(2) { !0b1101 } else { !0b1100 };
    }

    // Branches. [Branches.1]–[Branches.5]
    let mut finished = NONE;
    let mut shown = NONE;
    for b in 0..4 {
        let branch = &start.branches[b];
        let controllers = (8 * b as u32)..(8 * b as u32 + 8);
        let mut enabled = controllers.filter(|&r| bit(start.roc_enable, r));
        let mut queue: Vec<u8> = words(branch)[..usize::from(branch.used)].to_vec();
        match branch.state {
            BranchState::Rest if !queue.is_empty() => next.branches[b].state = BranchState::Strobe,
            BranchState::Strobe if enabled.clone().all(|r| bit(acknowledges, r)) => {
                finished[b] = Some(queue.remove(0));
                next.branches[b].state = BranchState::Drop;
            }
            BranchState::Drop if enabled.all(|r| !bit(acknowledges, r)) => next.branches[b].state = BranchState::Rest,
            _ => {}
        }
        if let Outcome::Event(word) | Outcome::Tag(word) = outcome {
            queue.push(word);
        }
        if next.branches[b].state == BranchState::Strobe {
            shown[b] = Some(queue[0]);
        }
        next.branches[b].used = queue.len() as u8;
        queue.resize(8, 0);
        for (place, word) in queue.into_iter().enumerate() {
            set_word(&mut next.branches[b], place, word);
        }
    }

    // Scalers. [Assign.1]–[Assign.4]
    let sync_loaded = match outcome {
        Outcome::Event(word) => word & 0x10 != 0,
        Outcome::Tag(_) => true,
        _ => false,
    };
    let counts = [
        (0x00..=0x00, passed != 0),
        (0x01..=0x0C, start.assign > 0 && bit(passed, (start.assign - 1) % 32)),
        (0x0D..=0x0D, latched),
        (0x0E..=0x0E, accepted != 0),
        (0x0F..=0x0F, rejected != 0),
        (0x10..=0x1F, level_2_fail),
        (0x20..=0x2F, level_3_fail),
        (0x30..=0x3F, late_fail),
        (0x50..=0x5F, sync_loaded),
    ];
    if counts.iter().any(|(codes, happened)| codes.contains(&start.assign) && *happened) {
        next.scalers[1] = ((u64::from(start.scalers[1]) + 1) % (1 << 32)) as u32;
    }
    if let Outcome::Event(_) = outcome {
        next.scalers[0] = ((u64::from(start.scalers[0]) + 1) % (1 << 32)) as u32;
    }

    let answer = Answer {
        stopped: stopped as u16,
        scaled: scaled as u16,
        lost: lost as u16,
        rejected: rejected as u16,
        accepted: accepted as u16,
        lines: lines_out(&next),
        outcome,
        finished,
        shown,
    };
    (answer, next)
}

/// Whether main has raised this line: the five from level 1 OK on. [Answer.1]
pub fn is_up(r: &Supervisor, line: u32) -> bool {
    bit(r.raised.into(), line)
}

/// The lines out of a record. [Answer.1] [Main.16]
pub fn lines_out(r: &Supervisor) -> u16 {
    let mut up: Vec<bool> = (0..5).map(|line| is_up(r, line)).collect();
    up.extend([r.clear_count > 0, bit(r.csr, 5)]);
    let low: u16 = up.iter().enumerate().map(|(b, &up)| u16::from(up) << b).sum();
    low + 256 * u16::from(r.accept_pattern)
}
