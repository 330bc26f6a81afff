//! Random scripts through a console program and through the model's console: the bytes that they print must be equal.

use crate::lists::{Maker, Step};
use crate::models::Model;
use crate::numbers::*;
use crate::random::Random;
use reference::console;
use std::io::Write;
use std::process::{Command, ExitCode, Stdio};

/// A script of random calls, with some lines of other form.
fn script(seed: u64) -> Vec<u8> {
    let mut maker = Maker::new(seed);
    let mut memory = vec![0; 4_096];
    let mut record = FRESH;
    let mut text = console::FIRST_LINE.to_vec();
    text.push(b'\n');
    let mut random = Random::new(seed ^ 0x5C21);
    let length = random.pick(&[5, 60, 400, 2_000, 4_200]);
    // Memory words first: a script starts with all of them 0.
    for _ in 0..random.below(40) {
        let (place, word) = (random.below(4_096), random.next() & 0xFFF0 | random.pick(&[3, 5, 9, 0]));
        text.extend(format!("M\t{place:03X}\t{word:04X}\n").bytes());
        memory[place as usize] = word as u16;
    }
    for _ in 0..length {
        let Step::Call { call, .. } = maker.step(&record) else { continue };
        let [kind, a, b, c] = call;
        let line = match kind {
            WRITE_REGISTER => format!("W\t{:02X}\t{b:08X}", a & 0xFF),
            READ_REGISTER => format!("R\t{:02X}", a & 0xFF),
            WRITE_MEMORY => format!("M\t{:03X}\t{b:04X}", a & 0xFFF),
            READ_MEMORY => format!("V\t{:03X}", a & 0xFFF),
            TICK => format!("T\t{:03X}\t{:02X}\t{c:08X}", a & 0xFFF, b & 0xFF),
            // The console makes plain calls only.
            _ => continue,
        };
        let cut = match kind {
            WRITE_REGISTER | READ_REGISTER => [kind, a & 0xFF, b, c],
            TICK => [kind, a & 0xFFF, b & 0xFF, c],
            _ => [kind, a & 0xFFF, b, c],
        };
        Model::call(&mut record, &mut memory, cut);
        text.extend(line.bytes());
        if random.once_in(60) {
            spoil(&mut text, &mut random);
        }
        text.push(b'\n');
    }
    if random.once_in(4) {
        text.pop();
    }
    if random.once_in(20) {
        let at = random.below(14) as usize;
        text[at] = random.next() as u8;
    }
    if random.once_in(20) {
        text.resize(console::LONGEST_SCRIPT + random.below(3) as usize - 1, b'\n');
    }
    text
}

/// One byte of the text's last line put to another, left out, or added.
fn spoil(text: &mut Vec<u8>, random: &mut Random) {
    let byte = random.pick(b"\t\n\r 0Fag\0TWRMV");
    let at = text.len() - 1 - random.below(6) as usize;
    match random.below(4) {
        0 => text[at] = byte,
        1 => text.insert(at, byte),
        2 => text.push(byte),
        _ => {
            text.remove(at);
        }
    }
}

fn printed(program: &str, script: &[u8]) -> std::io::Result<Vec<u8>> {
    let mut child = Command::new(program).stdin(Stdio::piped()).stdout(Stdio::piped()).spawn()?;
    let mut input = child.stdin.take().expect("a pipe was asked for");
    let text = script.to_vec();
    // A program that refuses a long script may close its input early.
    let writer = std::thread::spawn(move || drop(input.write_all(&text)));
    let output = child.wait_with_output()?;
    drop(writer.join());
    Ok(output.stdout)
}

pub fn compare(program: &str, seed: u64, count: u64) -> ExitCode {
    let mut bytes = 0;
    for list in 0..count {
        let script = script(seed.wrapping_mul(1_000_003).wrapping_add(list));
        let ours = console::answers(&script);
        let theirs = match printed(program, &script) {
            Ok(bytes) => bytes,
            Err(error) => {
                println!("{program}: {error}");
                return ExitCode::FAILURE;
            }
        };
        if ours != theirs {
            let line =
                ours.split(|&b| b == b'\n').zip(theirs.split(|&b| b == b'\n')).take_while(|(a, b)| a == b).count();
            println!("DIFFERENCE: seed {seed}, script {list}, in answer {}", line + 1);
            for (who, bytes) in [("model", &ours), ("program", &theirs)] {
                let answer = bytes.split(|&b| b == b'\n').nth(line).unwrap_or_default();
                println!("  {who}: {}", String::from_utf8_lossy(answer));
            }
            println!("the script:");
            println!("{}", String::from_utf8_lossy(&script));
            return ExitCode::FAILURE;
        }
        bytes += ours.len();
    }
    println!("{count} scripts compared, {bytes} bytes printed alike");
    ExitCode::SUCCESS
}
