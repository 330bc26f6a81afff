//! The four branches side by side: no branch sees another's acknowledges, words or state.

use super::random::Random;
use super::*;

const STATES: [BranchState; 3] = [BranchState::Rest, BranchState::Strobe, BranchState::Drop];

/// A branch alone, as the sentences have it: state, queue, and the finished word. [Branches.1]–[Branches.4]
fn moved(state: BranchState, mut queue: Vec<u8>, enabled: u8, high: u8) -> (BranchState, Vec<u8>, Option<u8>) {
    match state {
        BranchState::Rest if !queue.is_empty() => (BranchState::Strobe, queue, None),
        BranchState::Strobe if enabled & !high == 0 => {
            let first = queue.remove(0);
            (BranchState::Drop, queue, Some(first))
        }
        BranchState::Drop if enabled & high == 0 => (BranchState::Rest, queue, None),
        _ => (state, queue, None),
    }
}

/// A branch that holds up to seven words.
fn random_branch(random: &mut Random) -> Branch {
    let mut branch = Branch::fresh();
    branch.used = random.below(8) as u8;
    for place in 0..usize::from(branch.used) {
        set_word(&mut branch, place, random.below(64) as u8);
    }
    let state = random.pick(&STATES);
    branch.state = if branch.used == 0 && state == BranchState::Strobe { BranchState::Drop } else { state };
    branch
}

#[test]
fn each_branch_moves_by_its_own_byte() {
    let mut random = Random(0x2468_ACE0_1357_9BDF);
    let memory = vec![0; MEMORY_WORDS];
    // Every pair of enabled and high lines on one branch, anything on the others.
    for pair in 0..=0xFFFFu32 {
        let own = 8 * random.below(4);
        let mut r = Supervisor::fresh();
        r.roc_enable = random.mask() & !(0xFF << own) | (pair & 0xFF) << own;
        let acknowledges = random.acknowledges() & !(0xFF << own) | (pair >> 8) << own;
        r.branches = std::array::from_fn(|_| random_branch(&mut random));
        let before = r.branches.clone();
        let answer = r.tick(&memory, 0, 0, acknowledges).unwrap();
        for (b, branch) in before.iter().enumerate() {
            let byte = |word: u32| (word >> (8 * b)) as u8;
            let (state, queue, finished) = moved(branch.state, branch.held(), byte(r.roc_enable), byte(acknowledges));
            let shown = if state == BranchState::Strobe { queue.first().copied() } else { None };
            assert_eq!((answer.finished[b], answer.shown[b]), (finished, shown), "branch {b}");
            assert_eq!((r.branches[b].state, r.branches[b].held()), (state, queue.clone()));
            assert_eq!(r.branches[b].queue >> (8 * queue.len()), 0); // [Spoiled.1g]
        }
    }
}

#[test]
fn a_load_goes_behind_what_each_branch_holds() {
    let mut random = Random(0xACE0_2468_9BDF_1357);
    for _ in 0..2_000 {
        let mut unit = Unit::running(class_1(5, 1), &[(Supervisor::ROC_ENABLE, u32::MAX)], csr::GO);
        unit.record.branches = std::array::from_fn(|_| random_branch(&mut random));
        for branch in &mut unit.record.branches {
            branch.state = BranchState::Rest;
        }
        let expected = unit.record.branches.clone().map(|branch| [branch.held(), vec![0x05]].concat());
        unit.accept();
        unit.quiet();
        assert_eq!(unit.quiet().outcome, Outcome::Event(0x05)); // [Branches.5]
        assert_eq!(unit.record.branches.clone().map(|branch| branch.held()), expected);
    }
}

#[test]
fn bits_that_are_no_line_of_mains_show_nowhere() {
    let mut unit = Unit::fresh(0);
    unit.record.raised = !raised::ALL;
    assert_eq!(unit.quiet().lines, 0); // [Answer.1]
    unit.record.csr |= csr::HOLD;
    assert_eq!(unit.quiet().lines, 0); // [Test.7a]
}

#[test]
fn a_blank_branch_hides_no_other() {
    let broken: [fn(&mut Branch); 4] = [
        |branch| branch.state = BranchState::Strobe, // [Spoiled.1d]
        |branch| branch.used = 9,                    // [Spoiled.1f]
        |branch| branch.queue = 1,                   // [Spoiled.1g]
        |branch| branch.queue = 1 << 63,
    ];
    for b in 0..4 {
        for change in broken {
            let mut r = Supervisor::fresh();
            change(&mut r.branches[b]);
            assert!(r.is_spoiled());
            assert_eq!(r.tick(&vec![0; MEMORY_WORDS], 0, 0, 0), Err(decline::SPOILED));
        }
    }
}
