//! A branch: its sequencer and its queue.

use super::{word, PLACES};

/// For each number of used places, the bits that no place of the queue may have: in a used one those of a word over
/// 3Fh, in an unused one all. Entries above 8 are never decisive. [Spoiled.1f] [Spoiled.1g]
const STRAY_BITS: [u64; 16] = {
    let mut bits = [0; 16];
    let mut used = 0;
    while used < bits.len() {
        let mut places = [!word::ALL; PLACES];
        let mut place = used;
        while place < PLACES {
            places[place] = 0xFF;
            place += 1;
        }
        bits[used] = u64::from_le_bytes(places);
        used += 1;
    }
    bits
};

/// Where a branch's sequencer stands. [Branches.1]–[Branches.3]
#[derive(Clone, Copy, Debug, PartialEq, Eq, Hash)]
pub enum BranchState {
    Rest,
    Strobe,
    Drop,
}

/// One branch: its queue and its sequencer.
#[derive(Clone, Debug, PartialEq, Eq, Hash)]
pub struct Branch {
    /// A byte for each place, the first word in the lowest; places from `used` on are 0.
    pub queue: u64,
    /// How many places hold a word.
    pub used: u8,
    pub state: BranchState,
}

impl Branch {
    pub const fn fresh() -> Self {
        Branch { queue: 0, used: 0, state: BranchState::Rest }
    }

    /// The words held, first to last. [Account.16]
    pub fn held(&self) -> Vec<u8> {
        self.queue.to_le_bytes().into_iter().take(self.used.into()).collect()
    }

    /// The branch's clauses of the spoiled rule; `most` is 7 or 8. [Spoiled.1d] [Spoiled.1f] [Spoiled.1g]
    #[inline]
    pub(super) fn is_spoiled(&self, most: u8) -> bool {
        let stray = self.queue & STRAY_BITS[usize::from(self.used & 0xF)];
        let empty_strobe = (self.used == 0) & (self.state == BranchState::Strobe);
        (stray != 0) | (self.used > most) | empty_strobe
    }

    /// At Rest without a word. [Active.1]
    #[inline]
    pub(super) fn is_quiet(&self) -> bool {
        (self.used == 0) & (self.state == BranchState::Rest)
    }

    /// One move, then the load behind what it left. Gives the finished word. With no controller enabled both tests of
    /// the acknowledges are true. [Branches.1]–[Branches.5]
    #[inline]
    pub(super) fn step(&mut self, enabled: u8, acknowledges: u8, load: Option<u8>) -> Option<u8> {
        let high = acknowledges & enabled;
        let shows = (self.state == BranchState::Rest) & (self.used > 0); // [Branches.1]
        let finishes = (self.state == BranchState::Strobe) & (high == enabled); // [Branches.2]
        let rests = (self.state == BranchState::Drop) & (high == 0); // [Branches.3]

        let finished = finishes.then_some(self.queue as u8); // the lowest place
        self.queue = if finishes { self.queue >> 8 } else { self.queue };
        self.used -= u8::from(finishes);
        self.state = if shows {
            BranchState::Strobe
        } else if finishes {
            BranchState::Drop
        } else if rests {
            BranchState::Rest
        } else {
            self.state
        };
        if let Some(word) = load {
            // [Branches.5] Behind the words that are left: at most 7, or the record is spoiled.
            self.queue |= u64::from(word) << (8 * self.used);
            self.used += 1;
        }
        finished
    }

    /// The word at the strobe, if the branch stands there. [Branches.1]
    #[inline]
    pub(super) fn shown(&self) -> Option<u8> {
        (self.state == BranchState::Strobe).then_some(self.queue as u8)
    }
}
