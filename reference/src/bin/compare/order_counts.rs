//! What the pairs of writes met that were run in both orders, those of which nothing is claimed included. [Order.2]
//! [Order.3]

use crate::byte_calls::bits;
use crate::numbers::*;
use crate::orders::{is_memory, is_setting, Orders};
use reference::machine::csr;

/// The replies that two writes to settings get, in the order of the writes; 0 is taken.
#[rustfmt::skip]
const SETTINGS: [(usize, usize); 17] = [
    (0, 0), (0, 4), (4, 0), (0, 5), (5, 0), (0, 7), (7, 0), (1, 1), (4, 4), (4, 5), (5, 4), (4, 7), (7, 4), (5, 5),
    (5, 7), (7, 5), (7, 7),
];
/// Of two memory writes.
const PLACES: [(usize, usize); 9] = [(0, 0), (0, 3), (3, 0), (1, 1), (2, 2), (3, 3), (3, 4), (4, 3), (4, 4)];
/// Of a setting and a memory write. Beside 4 of the memory a setting is taken or gets 5 in test mode only.
#[rustfmt::skip]
const MIXED: [(usize, usize); 16] = [
    (0, 0), (0, 2), (0, 3), (0, 4), (1, 1), (4, 2), (4, 3), (4, 4), (5, 0), (5, 2), (5, 3), (5, 4), (7, 0), (7, 2),
    (7, 3), (7, 4),
];
const KINDS_OF_PAIRS: [(&str, &[(usize, usize)]); 3] =
    [("two settings", &SETTINGS), ("two places", &PLACES), ("setting and place", &MIXED)];
const DECLINED: [&str; 3] = ["both taken", "one declined", "both declined"];
/// Pairs of registers 1–16.
const REGISTER_PAIRS: usize = 120;

const EVENTS: [&str; 24] = [
    "two settings, both plain",
    "two settings, one by bytes",
    "two settings, both by bytes",
    "two settings by parts, both taken",
    "plain setting and place, both taken",
    "setting by bytes and place, both taken",
    "on a spoiled record",
    "on an active record",
    "on an active record in test mode",
    "in test mode, control taken and the other gets 4",
    "two factors, both with BYTE(3), both change",
    "two factors, one with BYTE(3), both change",
    "two factors, neither with BYTE(3), both change",
    "two timers by parts, both change",
    "two settings, each changes the record",
    "two places, each changes the memory",
    "two neighbouring places, each changes the memory",
    "setting and place, each changes something",
    "both get 4 and the status bit was not set before",
    "not claimed: two writes to a register, the records differ",
    "not claimed: disjoint runs of a factor, the records differ",
    "not claimed: setting and CSR, the setting's answers differ",
    "not claimed: setting and CSR, only the records differ",
    "not claimed: two writes to a place, the memories differ",
];

pub struct OrderCounts {
    /// By kind, and by both replies.
    replies: [[[u64; 8]; 8]; KINDS_OF_PAIRS.len()],
    /// By how many are declined, and by both registers.
    registers: [[[u64; 17]; 17]; DECLINED.len()],
    events: [u64; EVENTS.len()],
}

impl OrderCounts {
    pub fn new() -> OrderCounts {
        OrderCounts {
            replies: [[[0; 8]; 8]; KINDS_OF_PAIRS.len()],
            registers: [[[0; 17]; 17]; DECLINED.len()],
            events: [0; EVENTS.len()],
        }
    }

    /// Two writes that were run in both orders, from a record that stands so.
    pub fn add(&mut self, record: &Record, writes: [Call; 2], orders: &Orders) {
        let replies = orders.alone.map(|reply| reply as usize);
        let [a, b] = writes;
        let kind = match (is_setting(a), is_setting(b)) {
            (true, true) if a[1] != b[1] => 0,
            (false, false) if is_memory(a) && is_memory(b) && a[1] != b[1] => 1,
            (true, false) if is_memory(b) => 2,
            (false, true) if is_memory(a) => return self.add(record, [b, a], &orders.turned()),
            _ => return self.add_other(writes, orders),
        };
        self.replies[kind][replies[0]][replies[1]] += 1;
        self.add_record(record, writes, replies);
        match kind {
            0 => self.add_settings(writes, replies, orders),
            _ => self.add_places(kind, writes, replies, orders),
        }
    }

    /// Every name with its count; a row of pairs of registers has that of the rarest.
    pub fn rows(&self) -> Vec<(String, u64)> {
        let mut rows = Vec::new();
        for (counts, declined) in self.registers.iter().zip(DECLINED) {
            let pairs: Vec<u64> = (1..=16).flat_map(|a| (a + 1..=16).map(move |b| counts[a][b])).collect();
            let met = pairs.iter().filter(|&&count| count > 0).count();
            let rarest = pairs.into_iter().min().unwrap_or(0);
            rows.push((format!("{met} of {REGISTER_PAIRS} register pairs {declined}, the rarest"), rarest));
        }
        for (counts, (kind, listed)) in self.replies.iter().zip(KINDS_OF_PAIRS) {
            let row = |&(a, b): &(usize, usize)| (format!("{kind}, {} and {}", said(a), said(b)), counts[a][b]);
            rows.extend(listed.iter().map(row));
        }
        rows.extend(EVENTS.iter().zip(self.events).map(|(name, count)| (name.to_string(), count)));
        rows
    }

    /// Where the record stands.
    fn add_record(&mut self, record: &Record, writes: [Call; 2], replies: [usize; 2]) {
        let tested = record[0] as u32 & csr::TEST_MODE != 0;
        let is_control = |at: usize| is_setting(writes[at]) && writes[at][1] == 1 && replies[at] == 0;
        let runs = replies != [1, 1] && is_active(record);
        self.count([
            (6, replies == [1, 1]),
            (7, runs),
            (8, runs && tested),
            (9, runs && (is_control(0) && replies[1] == 4 || is_control(1) && replies[0] == 4)),
            (18, replies == [4, 4] && record[0] as u32 & csr::WRITE_ERROR == 0),
        ]);
    }

    fn add_settings(&mut self, [a, b]: [Call; 2], replies: [usize; 2], orders: &Orders) {
        let declined = replies.iter().filter(|&&reply| reply != 0).count();
        self.registers[declined][a[1].min(b[1]) as usize][a[1].max(b[1]) as usize] += 1;
        let by_bytes = usize::from(a[0] == WRITE_BYTES) + usize::from(b[0] == WRITE_BYTES);
        let is_part = |call: Call| !matches!(run(call), 0 | u32::MAX);
        let both = |is: &dyn Fn(Call) -> bool| is(a) && is(b);
        let change = orders.changes == [true, true];
        let factors = change && both(&|call| (2..=9).contains(&call[1]));
        let byte_3 = [a, b].iter().filter(|&&call| run(call) & 0xFF != 0).count();
        self.count([
            (by_bytes, true),
            (3, declined == 0 && both(&is_part)),
            (10, factors && byte_3 == 2),
            (11, factors && byte_3 == 1),
            (12, factors && byte_3 == 0),
            (13, change && both(&|call| call[1] >= 12 && is_part(call))),
            (14, declined == 0 && change),
        ]);
    }

    /// Two memory writes, or a setting and a memory write.
    fn add_places(&mut self, kind: usize, [a, b]: [Call; 2], replies: [usize; 2], orders: &Orders) {
        let taken = replies == [0, 0];
        let change = taken && orders.changes == [true, true];
        self.count([
            (4, kind == 2 && taken && a[0] == WRITE_REGISTER),
            (5, kind == 2 && taken && a[0] == WRITE_BYTES),
            (15, kind == 1 && change),
            (16, kind == 1 && change && a[1].abs_diff(b[1]) == 1),
            (17, kind == 2 && change),
        ]);
    }

    /// Two writes whose order may matter: that it does is met.
    fn add_other(&mut self, [a, b]: [Call; 2], orders: &Orders) {
        let one_register = is_setting(a) && is_setting(b);
        let apart = run(a) & run(b) == 0 && (2..=9).contains(&a[1]);
        let answers = is_setting(a) && orders.answers[0] || is_setting(b) && orders.answers[1];
        let with_csr = is_setting(a) != is_setting(b);
        self.count([
            (19, one_register && orders.record),
            (20, one_register && apart && orders.record),
            (21, with_csr && answers),
            (22, with_csr && !answers && orders.record),
            (23, is_memory(a) && is_memory(b) && orders.memory),
        ]);
    }

    fn count<const N: usize>(&mut self, events: [(usize, bool); N]) {
        for (event, is) in events {
            self.events[event] += u64::from(is);
        }
    }
}

/// The bits that a write to a setting reaches; all for a plain one, none for what is no run.
fn run(call: Call) -> u32 {
    match call[0] {
        WRITE_BYTES => bits(unpacked(call[3])),
        _ => u32::MAX,
    }
}

fn said(reply: usize) -> String {
    match reply {
        0 => "taken".into(),
        _ => format!("declined {reply}"),
    }
}
