//! What the compared calls met of the pass counts that are owed and of those that are not. [Bytes.10a] [Bytes.10b]

use crate::accounts::Account;
use crate::numbers::*;
use crate::pair::Pair;
use reference::account::INPUTS;

const EVENTS: [&str; 8] = [
    "factor changed without BYTE(3), owed no longer",
    "factor left the same without BYTE(3), owed still",
    "factor changed back without BYTE(3), not owed again",
    "factor left the same without BYTE(3), not owed again",
    "factor written with BYTE(3), owed again",
    "RESET or INITIALIZE, owed again",
    "tick after which a pass count that is not owed differs",
    "account checked with some pass counts owed and some not",
];

/// Which pass counts are owed, and the factors.
pub type Owed = ([bool; INPUTS], [u32; INPUTS]);

/// From the account, where one is kept.
pub fn owed<M: Machine>(pair: &Pair<M>) -> Option<Owed> {
    pair.account.as_ref().map(|account| (account.owed(), account.factors()))
}

pub struct OwedCounts {
    events: [u64; EVENTS.len()],
    /// For each input, the factor that stood where its pass count ceased to be owed.
    former: [u32; 8],
}

impl OwedCounts {
    pub fn new() -> OwedCounts {
        OwedCounts { events: [0; EVENTS.len()], former: [0; 8] }
    }

    /// A call that both machines answered alike, and what was owed before it. Declined ones tell nothing here.
    pub fn add<M: Machine>(&mut self, call: Call, reply: &Reply, before: Option<Owed>, pair: &Pair<M>) {
        let (Some(before), Some(after), 0) = (before, owed(pair), reply[0]) else { return };
        match call[0] {
            WRITE_REGISTER | WRITE_BYTES if (2..=9).contains(&call[1]) => self.add_factor(call, before, after),
            WRITE_REGISTER | WRITE_BYTES if call[1] == 0 => self.events[5] += u64::from(before.0 != after.0),
            TICK => self.events[6] += u64::from(is_other(pair)),
            _ => {}
        }
        self.events[7] += u64::from(after.0[..8].contains(&true) && after.0[..8].contains(&false));
    }

    /// Every name with its count.
    pub fn rows(&self) -> Vec<(String, u64)> {
        EVENTS.iter().zip(self.events).map(|(name, count)| (name.to_string(), count)).collect()
    }

    fn add_factor(&mut self, call: Call, before: Owed, after: Owed) {
        let i = call[1] as usize - 2;
        let (was_owed, is_owed) = (before.0[i], after.0[i]);
        let (stood, stands) = (before.1[i], after.1[i]);
        if was_owed && !is_owed {
            self.former[i] = stood;
        }
        let (first, count) = unpacked(call[3]);
        let lacks = call[0] == WRITE_BYTES && first.saturating_add(count) < 4 && count > 0;
        let events = [
            (0, was_owed && !is_owed),
            (1, was_owed && is_owed && lacks),
            (2, !was_owed && !is_owed && stands != stood && stands == self.former[i]),
            (3, !was_owed && !is_owed && stands == stood && lacks),
            (4, !was_owed && is_owed),
        ];
        for (event, is) in events {
            self.events[event] += u64::from(is);
        }
    }
}

/// Some pass count that is not owed is other than n div (F + 1).
fn is_other<M: Machine>(pair: &Pair<M>) -> bool {
    let Some(account) = &pair.account else { return false };
    (0..8).any(|i| !account.owed()[i] && !account.is_settled(i))
}
