//! The console program: a script of calls in, one answer for each line out. [Console.1]–[Console.8]

use crate::machine::{decline, Answer, Outcome, Supervisor, MEMORY_WORDS};

/// The longest script that is run. [Console.1]
pub const LONGEST_SCRIPT: usize = 65_536;
/// What the script's first line must be. [Console.2]
pub const FIRST_LINE: &[u8] = b"supervisor\t1";

/// Runs a script on a fresh record with all memory words 0 and gives what the console prints.
pub fn answers(script: &[u8]) -> Vec<u8> {
    let mut out = Vec::new();
    let (first, mut rest) = next_line(script);
    if script.len() > LONGEST_SCRIPT || first != FIRST_LINE {
        print_decline(&mut out, decline::FORM); // [Console.6]
        return out;
    }
    let mut supervisor = Supervisor::fresh();
    let mut memory = vec![0; MEMORY_WORDS];
    while !rest.is_empty() {
        let (line, after) = next_line(rest);
        rest = after;
        let printed = match Call::parse(line) {
            Some(call) => call.run(&mut supervisor, &mut memory, &mut out),
            None => Err(decline::FORM),
        };
        match printed {
            Ok(()) => out.push(b'\n'),
            Err(number) => print_decline(&mut out, number),
        }
    }
    out
}

/// Parts the rest of a script, from any line onward, into that line and what follows its newline. [Console.3]
/// [Console.4]
fn next_line(rest: &[u8]) -> (&[u8], &[u8]) {
    match rest.iter().position(|&byte| byte == b'\n') {
        Some(end) => (&rest[..end], &rest[end + 1..]),
        None => (rest, &[]),
    }
}

/// One line of the script after the first. [Console.3]
enum Call {
    WriteRegister { number: u32, value: u32 },
    ReadRegister { number: u32 },
    WriteMemory { place: u32, word: u16 },
    ReadMemory { place: u32 },
    Tick { triggers: u32, lines: u32, acknowledges: u32 },
}

impl Call {
    fn parse(line: &[u8]) -> Option<Call> {
        let mut fields = line.split(|&byte| byte == b'\t');
        let letter = fields.next()?;
        let mut next = |count| digits(fields.next()?, count);
        let call = match letter {
            b"W" => Call::WriteRegister { number: next(2)?, value: next(8)? },
            b"R" => Call::ReadRegister { number: next(2)? },
            b"M" => Call::WriteMemory { place: next(3)?, word: next(4)? as u16 },
            b"V" => Call::ReadMemory { place: next(3)? },
            b"T" => Call::Tick { triggers: next(3)?, lines: next(2)?, acknowledges: next(8)? },
            _ => return None,
        };
        match fields.next() {
            None => Some(call),
            Some(_) => None,
        }
    }

    /// Makes the call and prints its answer, but for the newline; prints nothing if the call is declined.
    fn run(self, supervisor: &mut Supervisor, memory: &mut [u16], out: &mut Vec<u8>) -> Result<(), u8> {
        match self {
            Call::WriteRegister { number, value } => {
                supervisor.write_register(number, value)?;
                out.extend_from_slice(b"ok");
            }
            Call::ReadRegister { number } => print_digits(out, supervisor.read_register(number)?, 8),
            Call::WriteMemory { place, word } => {
                supervisor.write_memory(memory, place, word)?;
                out.extend_from_slice(b"ok");
            }
            Call::ReadMemory { place } => print_digits(out, supervisor.read_memory(memory, place)?.into(), 4),
            Call::Tick { triggers, lines, acknowledges } => {
                print_answer(out, &supervisor.tick(memory, triggers, lines, acknowledges)?);
            }
        }
        Ok(())
    }
}

/// A field of exactly `count` hexadecimal digits, letters as capitals.
fn digits(field: &[u8], count: usize) -> Option<u32> {
    if field.len() != count {
        return None;
    }
    field.iter().try_fold(0, |value, &byte| {
        let digit = match byte {
            b'0'..=b'9' => byte - b'0',
            b'A'..=b'F' => byte - b'A' + 10,
            _ => return None,
        };
        Some((value << 4) | u32::from(digit))
    })
}

fn print_digits(out: &mut Vec<u8>, value: u32, count: u32) {
    out.extend((0..count).rev().map(|place| b"0123456789ABCDEF"[((value >> (4 * place)) & 0xF) as usize]));
}

/// `no` and the number in decimal, with its newline. [Console.5]
fn print_decline(out: &mut Vec<u8>, number: u8) {
    out.extend_from_slice(format!("no {number}\n").as_bytes());
}

/// [Console.7] [Console.8]
fn print_answer(out: &mut Vec<u8>, answer: &Answer) {
    for mask in [answer.stopped, answer.scaled, answer.lost, answer.rejected, answer.accepted] {
        print_digits(out, mask.into(), 3);
        out.push(b' ');
    }
    print_digits(out, answer.lines.into(), 4);
    out.push(b' ');
    match answer.outcome {
        Outcome::Nothing => out.push(b'-'),
        Outcome::Cleared => out.push(b'c'),
        Outcome::Event(word) => {
            out.push(b'e');
            print_digits(out, word.into(), 2);
        }
        Outcome::Tag(word) => {
            out.push(b'g');
            print_digits(out, word.into(), 2);
        }
    }
    for word in answer.finished.iter().chain(&answer.shown) {
        out.push(b' ');
        match word {
            Some(word) => print_digits(out, (*word).into(), 2),
            None => out.push(b'-'),
        }
    }
}
