//! A difference that was found: made as short as it gets, and printed.

use crate::lists::Step;
use crate::numbers::*;
use crate::pair::Pair;

/// A list as it was run, and where the machines differ after its last step.
pub struct Difference {
    pub memories: Vec<Vec<u16>>,
    pub steps: Vec<Step>,
    pub says: String,
}

impl Difference {
    /// Leaves steps out as long as the difference stays.
    pub fn shrink<M: Machine>(&mut self) {
        let mut size = self.steps.len() / 2;
        while size > 0 {
            let mut start = 0;
            while start < self.steps.len() {
                let mut fewer = self.steps.clone();
                fewer.drain(start..(start + size).min(fewer.len()));
                match differs::<M>(&self.memories, &fewer) {
                    Some(says) => {
                        self.says = says;
                        self.steps = fewer;
                    }
                    None => start += size,
                }
            }
            size /= 2;
        }
    }

    pub fn print(&self) {
        println!("DIFFERENCE in {}", self.says);
        println!("after these calls from a fresh record:");
        for step in &self.steps {
            match step {
                Step::Put(record) => {
                    let fields: Vec<String> = (0..RECORD)
                        .filter(|&i| record[i] != 0)
                        .map(|i| format!("{} {:X}", FIELDS[i], record[i]))
                        .collect();
                    println!("  record put in, all 0 but: {}", fields.join(", "));
                }
                Step::Call { memory, call } => print_call(*call, &self.memories[*memory]),
                Step::Both { memory, writes } => {
                    println!("  on copies of the record, each alone and both in either order:");
                    writes.iter().for_each(|&call| print_call(call, &self.memories[*memory]));
                }
            }
        }
    }
}

/// Whether these steps still show a difference, and which.
fn differs<M: Machine>(memories: &[Vec<u16>], steps: &[Step]) -> Option<String> {
    let mut pair = Pair::<M>::new(memories);
    steps.iter().find_map(|step| pair.step(step).err())
}

fn print_call([kind, a, b, c]: Call, words: &[u16]) {
    let name = KINDS[kind as usize];
    let word = words.get(a as usize).map_or("none".into(), |word| format!("{word:04X}"));
    match kind {
        WRITE_REGISTER => println!("  {name} {a:02X} {b:08X}"),
        READ_REGISTER => println!("  {name} {a:02X}"),
        WRITE_BYTES => println!("  {name} {a:02X} {b:08X}, first and count {:X?}", unpacked(c)),
        READ_BYTES => println!("  {name} {a:02X}, first and count {:X?}", unpacked(c)),
        WRITE_MEMORY => println!("  {name} {a:03X} {b:04X} ({} words)", words.len()),
        READ_MEMORY => println!("  {name} {a:03X} ({} words)", words.len()),
        TICK => {
            println!("  {name} {a:03X} {b:02X} {c:08X} ({} words, first of them at this place {word})", words.len())
        }
        FILL_MEMORY => println!("  {name} {:04X?} ({} words)", words_of([kind, a, b, c]), words.len()),
        _ => println!("  {name}"),
    }
}
