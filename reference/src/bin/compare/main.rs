//! Compares the proved library with the model: random lists of calls, every reply, the record after every call, and
//! the memory. See docs/PERFORMANCE.md for what is covered.

mod accounts;
mod blind_counts;
mod byte_calls;
mod byte_counts;
mod changes;
mod clauses;
mod counts;
mod difference;
mod faults;
#[allow(dead_code, unused_parens)]
mod faulty {
    include!(concat!(env!("OUT_DIR"), "/faulty.rs"));
}
#[allow(dead_code, unused_parens)]
mod faulty_account {
    include!(concat!(env!("OUT_DIR"), "/faulty_account.rs"));
}
mod held_counts;
mod lists;
mod models;
mod numbers;
mod order_calls;
mod order_counts;
mod orders;
mod owed_counts;
mod pair;
mod profile;
mod random;
mod scripts;
mod setup;
mod state_counts;
mod table_calls;
mod table_counts;
mod test_calls;
mod test_counts;
mod ticks;
mod values;

use counts::Counts;
use difference::Difference;
use lists::{Maker, Step};
use models::{Faulty, Model};
use numbers::*;
use pair::{Done, Pair};
use std::process::ExitCode;

const DEFAULT_SEED: u64 = 1;
const DEFAULT_CALLS: u64 = 20_000_000;
const DEFAULT_SCRIPTS: u64 = 300;

/// A list while it runs: both machines, and the steps and replies so far.
struct Run<M: Machine> {
    pair: Pair<M>,
    steps: Vec<Step>,
    replies: Vec<Reply>,
}

impl<M: Machine> Run<M> {
    /// One step on both machines, and what it met.
    fn step(&mut self, step: Step, counts: &mut Counts) -> Result<(), String> {
        let (before, owed) = (self.pair.proved, owed_counts::owed(&self.pair));
        self.steps.push(step);
        let step = self.steps.last().expect("one was pushed");
        match (self.pair.step(step)?, step) {
            (Done::Reply(reply), Step::Call { memory, call }) => {
                counts.add(&before, *call, &reply, &self.pair.proved, self.pair.account.is_some());
                counts.owed.add(*call, &reply, owed, &self.pair);
                counts.table.add(&before, *memory, *call, &reply, &self.pair);
                self.replies.push(reply);
            }
            (Done::Both(orders), Step::Both { writes, .. }) => {
                counts.calls += orders::CALLS;
                counts.orders.add(&before, *writes, &orders);
            }
            _ => counts.forget(),
        }
        Ok(())
    }

    /// The whole list, with two writes in both orders, or a fill of the memory, behind some steps.
    fn all(&mut self, maker: &mut Maker, counts: &mut Counts) -> Result<(), String> {
        counts.forget();
        counts.table.forget();
        for _ in 0..maker.length {
            let step = maker.step(&self.pair.proved);
            self.step(step, counts)?;
            if let Some(both) = maker.both(&self.pair.proved) {
                self.step(both, counts)?;
            }
            if let Some(fill) = maker.fill(&self.pair.proved) {
                self.step(fill, counts)?;
            }
        }
        counts.lists += 1;
        Ok(())
    }

    /// Once more in one piece, so that no record passes through numbers between the calls.
    fn again(&self, memories: &[Vec<u16>], counts: &mut Counts) -> Result<(), String> {
        let kept = self.steps.iter().filter(|step| !matches!(step, Step::Both { .. }));
        let one_piece = |step: &Step| match step {
            Step::Call { memory: 0, call } => Some(*call),
            _ => None,
        };
        let Some(calls) = kept.map(one_piece).collect::<Option<Vec<Call>>>() else { return Ok(()) };
        let mut record = FRESH;
        let mut memory = memories[0].clone();
        let mut again = vec![[0; 8]; calls.len()];
        proved(&mut record, &mut memory, &calls, &mut again);
        if again != self.replies || record != self.pair.proved || memory != self.pair.memories[0] {
            return Err("the proved library, in one piece and call by call".into());
        }
        counts.whole += calls.len() as u64;
        Ok(())
    }
}

/// Makes and runs the list of a seed.
fn run_list<M: Machine>(seed: u64, counts: &mut Counts) -> Result<(), Difference> {
    let mut maker = Maker::new(seed);
    let memories = maker.memories();
    let (steps, replies) = (Vec::with_capacity(maker.length), Vec::with_capacity(maker.length));
    let mut run = Run::<M> { pair: Pair::new(&memories), steps, replies };
    match run.all(&mut maker, counts).and_then(|()| run.again(&memories, counts)) {
        Err(says) => Err(Difference { memories, steps: run.steps, says }),
        Ok(()) => Ok(()),
    }
}

/// The comparison of the proved library with the model.
fn compare(seed: u64, calls: u64) -> ExitCode {
    let mut counts = Counts::new();
    let mut list = 0;
    let start = std::time::Instant::now();
    let mut shown = 0;
    while counts.calls < calls {
        if let Err(mut difference) = run_list::<Model>(seed.wrapping_mul(1_000_003).wrapping_add(list), &mut counts) {
            println!("seed {seed}, list {list}, after {} calls", counts.calls);
            difference.shrink::<Model>();
            difference.print();
            return ExitCode::FAILURE;
        }
        list += 1;
        if start.elapsed().as_secs() / 10 > shown {
            shown = start.elapsed().as_secs() / 10;
            eprintln!("{} of {calls} calls, {list} lists, no difference", counts.calls);
        }
    }
    let missing = counts.print();
    println!(
        "{} calls in {} lists compared, no difference; account checked after {} of them; {} run again in one piece",
        counts.calls, counts.lists, counts.accounts, counts.whole
    );
    if missing.is_empty() {
        ExitCode::SUCCESS
    } else {
        println!("NEVER MET: {}", missing.join("; "));
        ExitCode::FAILURE
    }
}

/// Every wrong model against the proved library, by the same lists.
fn find_faults(seed: u64, calls: u64) -> ExitCode {
    std::panic::set_hook(Box::new(|_| {}));
    let mut missed = 0;
    let mut number = 0;
    for says in faults::names() {
        number += 1;
        faults::turn_on(number);
        let mut counts = Counts::new();
        let mut list = 0;
        let found = loop {
            if counts.calls >= calls {
                break None;
            }
            let at = seed.wrapping_mul(1_000_003).wrapping_add(list);
            // A wrong model may run into a panic of its own: that is found too.
            let run = std::panic::AssertUnwindSafe(|| run_list::<Faulty>(at, &mut counts));
            match std::panic::catch_unwind(run) {
                Ok(Ok(())) => list += 1,
                Ok(Err(mut difference)) => {
                    let shrunk = std::panic::AssertUnwindSafe(|| {
                        difference.shrink::<Faulty>();
                        difference
                    });
                    break Some(std::panic::catch_unwind(shrunk).ok());
                }
                Err(_) => break Some(None),
            }
        };
        match found {
            None => {
                missed += 1;
                println!("{number:>3}  NOT FOUND in {} calls: {says}", counts.calls);
            }
            Some(None) => {
                println!("{number:>3}  seed {seed}, list {list}, call {}: {says} (it panicked)", counts.calls)
            }
            Some(Some(difference)) => println!(
                "{number:>3}  seed {seed}, list {list}, call {}, shrunk to {} steps: {says}",
                counts.calls,
                difference.steps.len(),
            ),
        }
    }
    faults::turn_on(0);
    println!("{number} wrong models, {} found, {missed} missed", number - missed);
    if missed == 0 {
        ExitCode::SUCCESS
    } else {
        ExitCode::FAILURE
    }
}

/// The words after the first `from`: a seed and a count, or the defaults.
fn numbers(words: &[String], from: usize, count: u64) -> Result<(u64, u64), String> {
    let number = |at: usize, otherwise: u64| match words.get(at) {
        None => Ok(otherwise),
        Some(word) => word.parse().map_err(|_| format!("{word}: a number was expected")),
    };
    match words.get(from + 2) {
        Some(word) => Err(format!("{word}: one word too many")),
        None => Ok((number(from, DEFAULT_SEED)?, number(from + 1, count)?)),
    }
}

fn run(words: &[String]) -> Result<ExitCode, String> {
    match words.first().map(String::as_str) {
        Some("--faults") => numbers(words, 1, DEFAULT_CALLS).map(|(seed, calls)| find_faults(seed, calls)),
        Some("--scripts") => {
            let program = words.get(1).ok_or("--scripts: a program was expected")?;
            numbers(words, 2, DEFAULT_SCRIPTS).map(|(seed, count)| scripts::compare(program, seed, count))
        }
        _ => numbers(words, 0, DEFAULT_CALLS).map(|(seed, calls)| compare(seed, calls)),
    }
}

fn main() -> ExitCode {
    let words: Vec<String> = std::env::args().skip(1).collect();
    run(&words).unwrap_or_else(|says| {
        eprintln!("{says}; reference/compare --help says how it is called");
        ExitCode::from(2)
    })
}
