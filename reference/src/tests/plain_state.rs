//! STATE a second time, slow and close to section 3.11 of source document 001: bit by bit, controller by controller.

use super::*;

pub fn state(r: &Supervisor) -> u32 {
    (0..32).filter(|&number| is_high(r, number)).map(|number| 1 << number).sum()
}

fn is_high(r: &Supervisor, number: u32) -> bool {
    let line = |bit: u32| r.kept_lines >> bit & 1 == 1; // [State.3] [State.6]
    match number {
        0 => plain::is_up(r, 0), // [State.7]
        1 => plain::is_up(r, 1),
        2 => line(1),
        3 => line(2),
        4 => plain::is_up(r, 2),
        5 => plain::is_up(r, 3),
        6 => line(3),
        7 => line(4),
        8 => plain::is_up(r, 4),
        9 => r.clear_count != 0,
        10 => line(5),
        11 => line(6),
        12 => r.latched,       // [State.7]
        13 => !is_high(r, 15), // [State.4b]
        14 => r.main != MainState::Idle,
        15 => is_ready(r),                                          // [State.4a]
        16 => is_active(r),                                         // [Active.1]
        17 => r.user_sync_waiting || r.main == MainState::SyncHold, // [State.5]
        18 => r.branches.iter().map(|branch| u32::from(branch.used)).sum::<u32>() == 0,
        19 => (0..4).any(|b| r.branches[b].used >= depth(r, b)), // [State.7]
        _ => branch_bit(r, (number as usize - 20) / 3, (number - 20) % 3),
    }
}

fn csr(r: &Supervisor, number: u32) -> bool {
    r.csr >> number & 1 == 1
}

fn wanted(r: &Supervisor) -> bool {
    csr(r, 4) && (csr(r, 2) || csr(r, 3))
}

/// [Ready.1] [Blind.2], with the kept lines
fn is_ready(r: &Supervisor) -> bool {
    let front_busy = r.kept_lines >> 5 & 1 == 1;
    let inhibit = r.kept_lines >> 6 & 1 == 1;
    let hindrances = [
        !csr(r, 0),
        r.main != MainState::Idle,
        r.user_sync_waiting,
        wanted(r),
        r.blind > 0,
        front_busy,
        inhibit && !csr(r, 11),
    ];
    hindrances == [false; 7]
}

pub fn is_active(r: &Supervisor) -> bool {
    let at_work = |branch: &Branch| branch.used != 0 || branch.state != BranchState::Rest;
    csr(r, 0) || r.main != MainState::Idle || r.user_sync_waiting || wanted(r) || r.branches.iter().any(at_work)
}

/// [Main.13]
fn depth(r: &Supervisor, b: usize) -> u8 {
    match b {
        _ if csr(r, 9) => 1,
        3 if csr(r, 10) => 1,
        _ => 8,
    }
}

/// Strobe, AND and OR of a branch, in this order.
fn branch_bit(r: &Supervisor, b: usize, which: u32) -> bool {
    let bit = |word: u32, controller: usize| word >> (8 * b + controller) & 1 == 1;
    let mut enabled = (0..8).filter(|&controller| bit(r.roc_enable, controller));
    match which {
        0 => r.branches[b].state == BranchState::Strobe,
        1 => enabled.all(|controller| bit(r.kept_acknowledges, controller)),
        _ => enabled.any(|controller| bit(r.kept_acknowledges, controller)),
    }
}
