//! Register 20, STATE: every bit both ways. [State.1]–[State.7]

use super::*;

pub(super) const STATE: u32 = Supervisor::STATE;
/// AND over no controller is high, and the module is busy with all buffers empty. [State.7] [State.4b]
pub(super) const FRESH: u32 = 0x4924_2000;

impl Unit {
    /// One bit of STATE.
    #[track_caller]
    pub(super) fn shows(&mut self, bit: u32) -> bool {
        self.read(STATE) >> bit & 1 == 1
    }
}

/// A fresh record changed so.
pub(super) fn put(change: impl Fn(&mut Supervisor)) -> Unit {
    let mut unit = Unit::fresh(0);
    change(&mut unit.record);
    unit
}

/// STATE of a fresh record changed so.
#[track_caller]
pub(super) fn state_of(change: impl Fn(&mut Supervisor)) -> u32 {
    put(change).read(STATE)
}

/// A fresh record changed so reads as a fresh one, but for these bits, which all turn over.
#[track_caller]
fn turns(bits: &[u32], change: impl Fn(&mut Supervisor)) {
    let mask = bits.iter().fold(0, |mask, bit| mask | 1 << bit);
    assert_eq!(state_of(change) ^ FRESH, mask, "bits {bits:?}");
}

/// A running module with all inputs enabled that has latched a pattern under these lines and acknowledges.
pub(super) fn latched(word: u16) -> Unit {
    let mut unit = Unit::running(word, &[(Supervisor::ROC_ENABLE, 0x0301)], csr::GO);
    unit.tick(1, line::LEVEL_2_PASS | line::LEVEL_3_FAIL, 0x0101);
    unit
}

#[test]
fn a_fresh_record_reads_so() {
    assert_eq!(Unit::fresh(0).read(STATE), FRESH);
    let mut unit = latched(0);
    unit.record = Supervisor::fresh();
    assert_eq!(unit.read(STATE), FRESH);
}

#[test]
fn raised_lines_stand_where_section_3_11_has_them() {
    turns(&[0], |r| r.raised = raised::LEVEL_1_OK); // [State.7]
    turns(&[1], |r| r.raised = raised::LEVEL_2_START); // [State.2]
    turns(&[4], |r| r.raised = raised::LEVEL_2_ACCEPT);
    turns(&[5], |r| r.raised = raised::LEVEL_3_START);
    turns(&[8], |r| r.raised = raised::LEVEL_3_ACCEPT);
    turns(&[], |r| (r.accept_pattern, r.csr) = (0xFF, csr::LEVEL_1_HARDWARE));
}

#[test]
fn kept_lines_stand_where_section_3_11_has_them() {
    turns(&[], |r| r.kept_lines = 0x01); // the strobe is not shown
    turns(&[2], |r| r.kept_lines = 0x02); // [State.6]
    turns(&[3], |r| r.kept_lines = 0x04);
    turns(&[6], |r| r.kept_lines = 0x08);
    turns(&[7], |r| r.kept_lines = 0x10);
    turns(&[10], |r| r.kept_lines = 0x20); // [State.3]
    turns(&[11], |r| r.kept_lines = 0x40);
    turns(&[], |r| r.csr = csr::INHIBIT); // the line, not the status bit
}

#[test]
fn lines_are_those_of_the_latest_tick() {
    let mut unit = Unit::fresh(0);
    for (lines, bits) in [(0x7F, 0xCCC), (0x02, 0x004), (0x00, 0), (0x30, 0x480)] {
        unit.tick(0, lines, 0);
        assert_eq!(unit.read(STATE), FRESH | bits, "lines {lines:X}"); // [State.3] [State.6]
    }
}

#[test]
fn clear_is_c_above_0() {
    turns(&[9], |r| r.clear_count = 1); // [Main.16]
    turns(&[9], |r| r.clear_count = 255);
    // In Clear with c at 0 the line is low already.
    turns(&[14, 16], |r| r.main = MainState::Clear);
}

#[test]
fn bit_12_is_a_pattern_latched_in_the_latest_tick() {
    turns(&[12], |r| r.latched = true);
    for word in [0, class_1(5, 1), class_2(5, 1)] {
        let mut unit = latched(word); // rejected or accepted [State.7]
        assert!(unit.shows(12));
        unit.quiet();
        assert!(!unit.shows(12), "it falls in the next tick");
    }
    let mut lost = Unit::running(0, &[], csr::GO);
    lost.tick(1, line::FRONT_BUSY, 0);
    assert!(!lost.shows(12), "a lost pulse is not latched");
    let mut scaled = Unit::running(0, &[(Supervisor::FACTOR_1, 1)], csr::GO);
    scaled.tick(1, 0, 0);
    assert!(!scaled.shows(12));
    let mut stopped = Unit::running(0, &[], 0);
    stopped.tick(1, 0, 0);
    assert!(!stopped.shows(12));
}

#[test]
fn ready_is_the_ready_rule_with_the_kept_lines() {
    turns(&[13, 15, 16], |r| r.csr = csr::GO); // [State.4a] [State.4b]
    let hindered: [(u32, fn(&mut Supervisor)); 6] = [
        (0, |r| r.blind = 1), // [Blind.2]
        (0, |r| r.blind = 2),
        (1 << 10, |r| r.kept_lines = 0x20),
        (1 << 11, |r| r.kept_lines = 0x40),
        (0, |r| r.csr |= csr::ENABLE_SYNC | csr::FORCE_SYNC),
        (1 << 17, |r| r.user_sync_waiting = true),
    ];
    for (bits, change) in hindered {
        let value = state_of(|r| {
            r.csr = csr::GO;
            change(r);
        });
        assert_eq!(value, FRESH | bits | 1 << 16);
    }
    // The override lets the module be ready; the line is shown all the same.
    turns(&[11, 13, 15, 16], |r| (r.csr, r.kept_lines) = (csr::GO | csr::OVERRIDE_INHIBIT, 0x40));
    turns(&[11], |r| (r.csr, r.kept_lines) = (csr::OVERRIDE_INHIBIT, 0x40));
    // Bit 2 or 3 without bit 4 wants nothing.
    turns(&[13, 15, 16], |r| r.csr = csr::GO | csr::FORCE_SYNC | csr::PAUSE_AND_SYNC);
}

#[test]
fn ready_says_whether_the_next_tick_with_these_lines_latches() {
    for lines in 0..0x80 {
        for csr_bits in [0, csr::GO, csr::GO | csr::OVERRIDE_INHIBIT] {
            let mut unit = Unit::running(0, &[], csr_bits);
            unit.tick(0, lines, 0);
            let ready = unit.shows(15);
            assert_eq!(unit.shows(13), !ready); // [State.4b]
            assert_eq!(unit.tick(0xFFF, lines, 0).rejected != 0, ready, "lines {lines:X}"); // [State.4a]
            assert!(!unit.shows(15), "blind, or still not ready");
        }
    }
}

#[test]
fn busy_without_go() {
    let mut unit = Unit::running(0, &[], csr::GO);
    assert_eq!((unit.shows(13), unit.shows(15)), (false, true));
    unit.write(Supervisor::CSR, csr::GO << 16);
    assert_eq!((unit.shows(13), unit.shows(15), unit.shows(14)), (true, false, false));
    // [State.4b]
}

#[test]
fn every_state_but_idle_is_a_cycle() {
    use MainState::*;
    for main in [Delay, Wait2, Wait3, Front, Space, Clear] {
        turns(&[14, 16], |r| (r.main, r.class) = (main, 2)); // [State.2] [Active.1]
        turns(&[14, 16], |r| (r.main, r.class, r.csr) = (main, 2, csr::GO)); // and not ready
    }
    turns(&[14, 16, 17], |r| r.main = SyncHold);
}

#[test]
fn active_asks_for_more_than_a_cycle() {
    turns(&[16], |r| r.csr = csr::ENABLE_SYNC | csr::FORCE_SYNC); // [Active.1]
    turns(&[16, 18], |r| (r.branches[2].used, r.branches[2].queue) = (1, 5));
    turns(&[16], |r| r.branches[1].state = BranchState::Drop); // no word: empty all the same [State.2]
    turns(&[], |r| r.blind = 2); // [Open: T8]
}

#[test]
fn synchronization_is_sync_hold_or_a_user_syncs_wait() {
    turns(&[16, 17], |r| r.user_sync_waiting = true); // [State.5]
    turns(&[], |r| r.csr = csr::SYNC | csr::ENABLE_SYNC | csr::PAUSE_ON_NEXT_SYNC);
    // Wanted is not yet loaded; the tick that loads the tag raises the bit, the one that ends the wait drops it.
    let mut unit = Unit::running(0, &[], csr::ENABLE_SYNC | csr::FORCE_SYNC);
    assert!(!unit.shows(17));
    assert_eq!(unit.quiet().outcome, Outcome::Tag(0x10));
    assert!(unit.shows(17));
    unit.quiet_ticks(2);
    assert!(unit.shows(17) && unit.shows(18), "all empty, but the wait ends a tick later");
    unit.quiet();
    assert!(!unit.shows(17));

    let mut unit = Unit::running(class_1(5, 1), &[(Supervisor::SYNC_INTERVAL, 1)], csr::GO | csr::ENABLE_SYNC);
    unit.accept();
    assert!(!unit.shows(17));
    assert_eq!(unit.outcome(), Outcome::Event(0x15));
    assert!(unit.shows(17));
    unit.run_to_idle();
    assert!(!unit.shows(17));
}

/// These words held by branch `b`, and room for eight.
fn holding(r: &mut Supervisor, b: usize, words: u8) {
    r.main = MainState::Space;
    r.branches[b].used = words;
}

#[test]
fn full_is_one_branch_not_below_its_depth() {
    for b in 0..4 {
        for words in 1..=8 {
            for (locks, depth) in [
                (0, 8),
                (csr::ROC_LOCK, 1),
                (csr::ROC_LOCK_BRANCH_4, if b == 3 { 1 } else { 8 }),
                (csr::ROC_LOCK | csr::ROC_LOCK_BRANCH_4, 1),
            ] {
                let mut unit = put(|r| holding(r, b, words));
                unit.record.csr = locks;
                assert_eq!(unit.shows(19), words >= depth, "branch {b}, {words} words, locks {locks:X}"); // [State.7]
                assert!(!unit.shows(18));
            }
        }
    }
    // Empty branches are below depth 1 too.
    turns(&[], |r| r.csr = csr::ROC_LOCK | csr::ROC_LOCK_BRANCH_4);
}

#[test]
fn strobe_is_the_branchs_phase() {
    for b in 0..4 {
        let first = 20 + 3 * b as u32;
        let word = |r: &mut Supervisor| (r.branches[b].used, r.branches[b].queue) = (1, 5);
        turns(&[16, 18, first], |r| {
            word(r);
            r.branches[b].state = BranchState::Strobe;
        });
        turns(&[16, 18], word); // a word at Rest
        turns(&[16, 18], |r| {
            word(r);
            r.branches[b].state = BranchState::Drop;
        });
    }
}

#[test]
fn and_and_or_take_enabled_controllers() {
    for b in 0..4 {
        let (and, or) = (21 + 3 * b, 22 + 3 * b);
        let kept = |enabled: u32, acknowledges: u32| {
            move |r: &mut Supervisor| {
                (r.roc_enable, r.kept_acknowledges) = (enabled << (8 * b), acknowledges << (8 * b));
            }
        };
        turns(&[], kept(0, 0xFF)); // none enabled: AND high, OR low [State.7]
        turns(&[and], kept(0x81, 0x7E)); // none of the enabled ones is high
        turns(&[and, or], kept(0x81, 0x80)); // one of two
        turns(&[or], kept(0x81, 0x81)); // all enabled ones, and no other
        turns(&[or], kept(0xFF, 0xFF));
        turns(&[and, or], kept(0xFF, 0xFE));
    }
}
