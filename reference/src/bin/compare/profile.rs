//! The habits of a list: how often lines, pulses and calls come, and how the acknowledges answer.

use crate::random::Random;

/// How the acknowledges answer.
#[derive(Clone, Copy)]
pub enum Acknowledges {
    None,
    All,
    Random,
    /// As the handshake wants them, late by chance.
    Willing(u32),
    /// The same, but for the branches of this mask, which stay silent.
    Partly(u32),
}

impl Acknowledges {
    fn new(random: &mut Random) -> Acknowledges {
        match random.below(8) {
            0 => Acknowledges::None,
            1 => Acknowledges::All,
            2 => Acknowledges::Random,
            3 => Acknowledges::Partly(1 << random.below(4)),
            4 => Acknowledges::Willing(20),
            5 => Acknowledges::Willing(90),
            _ => Acknowledges::Willing(250),
        }
    }
}

/// Chances in 256 and habits, drawn once for a list.
pub struct Profile {
    pub pulses: u32,
    pub inputs: u32,
    pub strobe: u32,
    pub pass_2: u32,
    pub fail_2: u32,
    pub pass_3: u32,
    pub fail_3: u32,
    pub busy: u32,
    pub inhibit: u32,
    pub acknowledges: Acknowledges,
    /// Calls that are no ticks.
    pub others: u32,
    /// Records put in by change.
    pub changes: u32,
    /// Memories of other lengths.
    pub lengths: u32,
    /// GO is set again where it is clear.
    pub restarts: u32,
    /// Calls that have to do with the modes and with TEST; with 0 a mode goes off soon.
    pub tests: u32,
}

impl Profile {
    pub fn new(random: &mut Random) -> Profile {
        let mut some = |values: &[u32]| random.pick(values);
        let pulses = some(&[20, 60, 120, 200, 250]);
        let inputs = some(&[0xFFF, 0xFFF, 0x001, 0x00F, 0xF00, 0x0F0, 0x100]);
        let strobe = some(&[0, 60, 128, 255]);
        let pass_2 = some(&[0, 30, 100, 200]);
        let fail_2 = some(&[0, 10, 60, 150]);
        let pass_3 = some(&[0, 30, 100, 200]);
        let fail_3 = some(&[0, 10, 60, 150]);
        let busy = some(&[0, 0, 10, 80, 200]);
        let inhibit = some(&[0, 0, 10, 120]);
        let others = some(&[4, 12, 30, 90]);
        let changes = some(&[0, 0, 0, 60, 110]);
        let lengths = some(&[0, 0, 0, 4, 12]);
        let restarts = some(&[10, 60, 120]);
        let tests = some(&[0, 0, 0, 0, 0, 24, 110]);
        let acknowledges = Acknowledges::new(random);
        Profile {
            pulses,
            inputs,
            strobe,
            pass_2,
            fail_2,
            pass_3,
            fail_3,
            busy,
            inhibit,
            acknowledges,
            others,
            changes,
            lengths,
            restarts,
            tests,
        }
    }
}
