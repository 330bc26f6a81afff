//! Two writes on one record in both orders, and each alone. What the papers claim of them is required of the proved
//! library, which must equal the model at every step. [Order.2] [Order.3]

use crate::numbers::*;
use crate::pair::{agree, fields};

/// Calls of the proved library that two writes take: each alone, and both in both orders.
pub const CALLS: u64 = 6;

/// A record and the memory lent to it.
#[derive(Clone, PartialEq)]
struct Stand {
    record: Record,
    memory: Vec<u16>,
}

impl Stand {
    fn proved<const N: usize>(&mut self, calls: [Call; N]) -> [Reply; N] {
        let mut replies = [[0; 8]; N];
        proved(&mut self.record, &mut self.memory, &calls, &mut replies);
        replies
    }

    /// The model's call must give this reply and leave what the proved library left.
    fn follow<M: Machine>(&mut self, call: Call, reply: &Reply, left: &Stand) -> Result<(), String> {
        let other = M::call(&mut self.record, &mut self.memory, call);
        agree([reply, &other], [&left.record, &self.record], [&left.memory, &self.memory])
    }
}

/// One order of two writes, on the proved library.
struct Order {
    /// The first write's reply, and whether it changes anything.
    alone: Reply,
    changes: bool,
    /// The second write's reply, and what both leave.
    behind: Reply,
    left: Stand,
}

/// The first write alone, then both in one piece.
fn order<M: Machine>(from: &Stand, calls: [Call; 2]) -> Result<Order, String> {
    let (mut one, mut left, mut model) = (from.clone(), from.clone(), from.clone());
    let [alone] = one.proved([calls[0]]);
    model.follow::<M>(calls[0], &alone, &one)?;
    let [first, behind] = left.proved(calls);
    if first != alone {
        return Err(format!("replies of the proved library: alone {alone:X?}, with a write behind it {first:X?}"));
    }
    model.follow::<M>(calls[1], &behind, &left)?;
    Ok(Order { alone, changes: one != *from, behind, left })
}

/// What two writes gave: of each its reply alone and whether it changes anything then, and where the orders differ.
pub struct Orders {
    pub alone: [u64; 2],
    pub changes: [bool; 2],
    /// A write's reply is another one behind the other write.
    pub answers: [bool; 2],
    pub record: bool,
    pub memory: bool,
}

impl Orders {
    /// The same with the two writes exchanged.
    pub fn turned(&self) -> Orders {
        let turn = |[one, other]: [bool; 2]| [other, one];
        Orders {
            alone: [self.alone[1], self.alone[0]],
            changes: turn(self.changes),
            answers: turn(self.answers),
            ..*self
        }
    }
}

/// Both orders from a record and memory that stand so; a difference between them is an error where it is claimed that
/// there is none.
pub fn run<M: Machine>(record: &Record, memory: &[u16], writes: [Call; 2]) -> Result<Orders, String> {
    let from = Stand { record: *record, memory: memory.to_vec() };
    let [a, b] = writes;
    let forth = order::<M>(&from, [a, b]).map_err(|says| format!("the writes in this order: {says}"))?;
    let back = order::<M>(&from, [b, a]).map_err(|says| format!("the writes in the other order: {says}"))?;
    let orders = Orders {
        alone: [forth.alone[0], back.alone[0]],
        changes: [forth.changes, back.changes],
        answers: [back.behind != forth.alone, forth.behind != back.alone],
        record: forth.left.record != back.left.record,
        memory: forth.left.memory != back.left.memory,
    };
    if !is_claimed(writes) {
        return Ok(orders);
    }
    let answers = |which, alone: Reply, behind: Reply| {
        format!("the {which} write is answered {alone:X?} alone and {behind:X?} behind the other")
    };
    let difference = match orders {
        Orders { answers: [true, _], .. } => answers("first", forth.alone, back.behind),
        Orders { answers: [_, true], .. } => answers("second", back.alone, forth.behind),
        Orders { record: true, .. } => fields(["this order", "the other"], [&forth.left.record, &back.left.record]),
        Orders { memory: true, .. } => "the memories".into(),
        _ => return Ok(orders),
    };
    Err(format!("the orders of two writes, both by the proved library: {difference}"))
}

/// Different registers of 1–16, different places, or one of each. [Order.2]
fn is_claimed([a, b]: [Call; 2]) -> bool {
    let reaches = |call: Call| is_setting(call) || is_memory(call);
    reaches(a) && reaches(b) && (is_setting(a) != is_setting(b) || a[1] != b[1])
}

/// A write to a register of 1–16, plain or by bytes.
pub fn is_setting(call: Call) -> bool {
    matches!(call[0], WRITE_REGISTER | WRITE_BYTES) && (1..=16).contains(&call[1])
}

pub fn is_memory(call: Call) -> bool {
    call[0] == WRITE_MEMORY
}
