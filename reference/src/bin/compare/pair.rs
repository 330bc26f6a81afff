//! The two machines beside each other, and where they differ after a call.

use crate::accounts::Account;
use crate::lists::Step;
use crate::models::{answer_of, Model};
use crate::numbers::*;
use crate::orders::{self, Orders};

/// What a step gave.
pub enum Done {
    Put,
    Reply(Reply),
    Both(Orders),
}

/// The two machines beside each other, with the account that goes with the second.
pub struct Pair<M: Machine> {
    pub proved: Record,
    model: Record,
    pub memories: Vec<Vec<u16>>,
    model_memories: Vec<Vec<u16>>,
    /// From fresh, as long as only calls change the record.
    pub account: Option<M::Account>,
    /// A factor write without BYTE(3) was carried out in the account's time.
    lacking: bool,
}

impl<M: Machine> Pair<M> {
    pub fn new(memories: &[Vec<u16>]) -> Pair<M> {
        Pair {
            proved: FRESH,
            model: FRESH,
            memories: memories.to_vec(),
            model_memories: memories.to_vec(),
            account: Some(M::Account::new()),
            lacking: false,
        }
    }

    /// One step on both; says where they differ. Two writes in both orders leave all as it stands.
    pub fn step(&mut self, step: &Step) -> Result<Done, String> {
        match step {
            Step::Put(record) => {
                self.proved = **record;
                self.model = **record;
                self.account = None;
                Ok(Done::Put)
            }
            Step::Call { memory, call } => self.call(*memory, *call).map(Done::Reply),
            Step::Both { memory, writes } => {
                orders::run::<M>(&self.proved, &self.memories[*memory], *writes).map(Done::Both)
            }
        }
    }

    fn call(&mut self, memory: usize, call: Call) -> Result<Reply, String> {
        let before = self.proved;
        let mut replies = [[0; 8]];
        proved(&mut self.proved, &mut self.memories[memory], &[call], &mut replies);
        let [reply] = replies;
        let other = M::call(&mut self.model, &mut self.model_memories[memory], call);
        let memories = [&self.memories[memory][..], &self.model_memories[memory][..]];
        agree([&reply, &other], [&self.proved, &self.model], memories)?;
        // [Declines.1b] a declined call leaves the record, but for the status bit of decline 4.
        if !matches!(reply[0], 0 | 4) && self.proved != before {
            return Err("a declined call changed the record on both sides".into());
        }
        if call[0] == FILL_MEMORY && reply[0] == 0 {
            gives_back(call, memories[0])?;
        }
        self.keep_account(call, &reply)?;
        Ok(reply)
    }

    fn keep_account(&mut self, call: Call, reply: &Reply) -> Result<(), String> {
        let Some(account) = &mut self.account else { return Ok(()) };
        let done = if reply[0] == 0 { Ok(()) } else { Err(reply[0] as u8) };
        match call[0] {
            WRITE_REGISTER => account.write_bytes(call[1] as u32, (0, 4), call[2] as u32, done),
            WRITE_BYTES => {
                let (first, count) = unpacked(call[3]);
                account.write_bytes(call[1] as u32, (first, count), call[2] as u32, done);
                self.lacking |= reply[0] == 0 && (2..=9).contains(&call[1]) && first + count < 4;
            }
            TICK => account.tick(call[1] as u32, call[2] as u32, &answer_of(reply)),
            MAKE_FRESH => (*account, self.lacking) = (M::Account::new(), false),
            _ => {}
        }
        // [Bytes.10a]
        if !self.lacking && account.owed().contains(&false) {
            return Err("the account: a pass count is not owed, and every factor write had BYTE(3)".into());
        }
        account.check(&Model::of(&self.proved)).map_err(|says| format!("the account: {says}"))
    }
}

/// Says where the proved library and the model differ after a call, the library first.
pub fn agree(replies: [&Reply; 2], records: [&Record; 2], memories: [&[u16]; 2]) -> Result<(), String> {
    if replies[0] != replies[1] {
        return Err(format!("replies: proved {:X?}, model {:X?}", replies[0], replies[1]));
    }
    if records[0] != records[1] {
        return Err(format!("records: {}", fields(["proved", "model"], records)));
    }
    if memories[0] != memories[1] {
        return Err(format!("memories: {}", places(memories)));
    }
    Ok(())
}

/// The first place at which two memories of one length differ, and how many there are.
fn places([one, other]: [&[u16]; 2]) -> String {
    let differ: Vec<usize> = (0..one.len()).filter(|&place| one[place] != other[place]).collect();
    let first = differ.first().map(|&at| format!("place {at:03X}: proved {:04X}, model {:04X}", one[at], other[at]));
    format!("{}; places that differ: {}", first.unwrap_or_default(), differ.len())
}

/// Place 0 is 0, and each word stands at its own one-input place. [Table.5] [Table.7]
fn gives_back(call: Call, memory: &[u16]) -> Result<(), String> {
    let own = words_of(call).into_iter().enumerate().map(|(at, word)| (1 << at, word));
    match own.chain([(0, 0)]).find(|&(place, word)| memory[place] != word) {
        Some((place, word)) => {
            Err(format!("place {place:03X} after a fill by both: {:04X}, not {word:04X}", memory[place]))
        }
        None => Ok(()),
    }
}

/// The fields in which two records differ.
pub fn fields(names: [&str; 2], records: [&Record; 2]) -> String {
    let [one, other] = records;
    let field = |i: usize| format!("{}: {} {:X}, {} {:X}", FIELDS[i], names[0], one[i], names[1], other[i]);
    let fields: Vec<String> = (0..RECORD).filter(|&i| one[i] != other[i]).map(field).collect();
    fields.join("; ")
}
