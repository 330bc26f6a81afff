//! Time and instructions of a tick and of a fill of the memory: the proved library's public calls beside the model's, in
//! one program.
//!
//! Both run the same loop over the same table of inputs and fold every field of every answer into a sum; the two sums
//! must be equal. Settings come from the table, so that the compiler knows none of them. Two memories that were filled
//! must be equal too.

mod fills;
mod sides;
mod traffic;

use reference::machine::{self, Supervisor, MEMORY_WORDS};
use sides::SIDES;
use std::hint::black_box;
use std::process::ExitCode;
use std::time::Instant;
use traffic::{holding, memory, moving, moving_memory, pulsing, table, timed, INPUTS, KINDS, TIMERS};

/// Ticks of one run: twice through the table. A run is short against the time slices of a machine in use, or the best
/// of the slower side would be less often an undisturbed one.
const TICKS: u64 = 2 * INPUTS as u64;
/// Over six million ticks for each side.
const RUNS: usize = 200;

/// The best time of one tick of both sides, run by turns, and whether their sums are equal.
fn best(runs: usize, ticks: u64, memory: &[u16], table: &[u64]) -> Option<[f64; 2]> {
    let mut best = [f64::INFINITY; 2];
    for _ in 0..runs {
        let mut sums = [0; 2];
        for (side, (_, run)) in SIDES.iter().enumerate() {
            let start = Instant::now();
            sums[side] = run(black_box(ticks), black_box(memory), black_box(table));
            best[side] = best[side].min(start.elapsed().as_secs_f64() * 1e9 / ticks as f64);
        }
        if sums[0] != sums[1] {
            println!("DIFFERENT SUMS: {:016X} and {:016X}", sums[0], sums[1]);
            return None;
        }
    }
    Some(best)
}

/// The record of the proved library, laid out as its compiler does: C's rules, fields in the order written.
#[allow(dead_code)]
mod layout {
    #[repr(C)]
    pub struct Branch(u64, u32, u8);
    #[repr(C)]
    pub struct Readout([Branch; 4], [u32; 2]);
    #[repr(C)]
    pub struct Main(u32, [u8; 7]);
    #[repr(C)]
    pub struct Timers([u16; 4], u8);
    #[repr(C)]
    pub struct Latest(u32, bool);
    #[repr(C)]
    pub struct Core([[u32; 8]; 2], u32, u32, u32, [u32; 3], [u32; 2], Main, Timers, [u16; 2], [u8; 2], Latest);
    #[repr(C)]
    pub struct Supervisor(Readout, Core);
}

/// One line: both times and their ratio; no, if the sums differ.
fn line(name: &str, runs: usize, ticks: u64, memory: &[u16], table: &[u64]) -> Option<()> {
    print_times(name, best(runs, ticks, memory, table)?);
    Some(())
}

fn print_times(name: &str, [proved, model]: [f64; 2]) {
    println!("  {name:<14} proved {proved:6.1}   model {model:6.1}   ratio {:.2}", proved / model);
}

fn times(runs: usize) -> Option<()> {
    let memory = memory();
    println!("nanoseconds a tick, best of {runs} runs of {TICKS} ticks by turns");
    for traffic in KINDS {
        line(traffic.name, runs, TICKS, &memory, &table(traffic))?;
    }
    let once = INPUTS as u64;
    println!("with words held in each branch, runs of {once} ticks");
    for words in 0..=8 {
        line(&format!("{words} words"), runs, once, &vec![0x0153; MEMORY_WORDS], &holding(words))?;
    }
    println!("in busy-heavy traffic with inputs that pulse at every tick");
    for inputs in 1..=12 {
        line(&format!("{inputs} inputs"), runs, once, &memory, &pulsing(inputs))?;
    }
    println!("in busy-heavy traffic with timers in use");
    for timers in TIMERS {
        line(timers.name, runs, once, &memory, &timed(timers))?;
    }
    println!("with all inputs, main and all branches moving at every tick");
    line("all moving", runs, once, &moving_memory(), &moving())?;
    println!("microseconds of a fill of the memory, best of {runs} runs of {} fills by turns", fills::FILLS);
    print_times("fill", fills::best(runs)?);
    println!("bytes of a record: proved {}, model {}", size_of::<layout::Supervisor>(), size_of::<Supervisor>());
    Some(())
}

/// What `./bench` runs under callgrind: some ticks or fills of one side.
fn count(side: &str, traffic: &str, ticks: u64) -> Option<()> {
    if traffic == "fill" {
        return count_fills(side, ticks as usize);
    }
    let (_, run) = SIDES.iter().find(|(name, _)| *name == side)?;
    let (memory, table) = match KINDS.into_iter().find(|kind| kind.name == traffic) {
        Some(kind) => (memory(), table(kind)),
        None if traffic == "moving" => (moving_memory(), moving()),
        None => return None,
    };
    let sum = run(black_box(ticks), &memory, &table);
    println!("{side} {traffic} {ticks} {sum:016X}");
    Some(())
}

/// At most `fills::FILLS`: the same words are made for any number of fills.
fn count_fills(side: &str, count: usize) -> Option<()> {
    let (_, run) = fills::SIDES.iter().find(|(name, _)| *name == side)?;
    let (words, mut memory) = (fills::words(), fills::memory());
    let declined = run(&mut memory, black_box(words.get(..count.checked_mul(machine::INPUTS)?)?));
    println!("{side} fill {count} {declined} {:04X}", memory[MEMORY_WORDS - 1]);
    Some(())
}

fn main() -> ExitCode {
    let words: Vec<String> = std::env::args().skip(1).collect();
    let words: Vec<&str> = words.iter().map(String::as_str).collect();
    let done = match (words.as_slice(), words.last().map(|word| word.parse())) {
        (["count", side, traffic, _], Some(Ok(ticks))) => count(side, traffic, ticks),
        ([], _) => times(RUNS),
        ([_], Some(Ok(runs @ 1..))) => times(runs as usize),
        _ => {
            eprintln!("a number of runs was expected; reference/bench --help says how it is called");
            return ExitCode::from(2);
        }
    };
    done.map_or(ExitCode::FAILURE, |()| ExitCode::SUCCESS)
}
