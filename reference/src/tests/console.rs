//! The console program. [Console.1]–[Console.10]

use crate::console::answers;

/// Runs the lines after the first, written with spaces for tabs.
fn run(lines: &str) -> String {
    let script = format!("supervisor\t1\n{}", lines.replace(' ', "\t"));
    printed(script.as_bytes())
}

fn printed(script: &[u8]) -> String {
    String::from_utf8(answers(script)).unwrap()
}

const SCRIPT: &str = "\
M 001 0153
W 01 00000002
W 00 00000001
T 001 00 00000000
T 000 00 00000000
T 000 00 00000000
T 000 00 00000000
T 000 00 00000000
";

const PRINTED: &str = "\
ok
ok
ok
000 000 000 000 001 0101 - - - - - - - - -
000 000 000 000 000 0115 - - - - - - - - -
000 000 000 000 000 0115 e05 - - - - - - - -
000 000 000 000 000 0000 - - - - - 05 05 05 05
000 000 000 000 000 0000 - 05 05 05 05 - - - -
";

#[test]
fn the_printed_script() {
    assert_eq!(run(SCRIPT), PRINTED); // [Console.9] [Console.10]
    assert_eq!(run(SCRIPT.trim_end()), PRINTED, "the last line may lack its newline");
    // [Console.3]
}

#[test]
fn empty_input() {
    assert_eq!(printed(b""), "no 6\n"); // [Open: K2]
}

#[test]
fn first_line_alone() {
    assert_eq!(printed(b"supervisor\t1"), ""); // [Open: K2]
    assert_eq!(printed(b"supervisor\t1\n"), "");
}

#[test]
fn bad_first_lines_print_only_no_6() {
    let bad: [&[u8]; 15] = [
        b"\n",
        b"supervisor",
        b"supervisor\n",
        b"supervisor 1\nR\t00\n",
        b"supervisor\t2\nR\t00\n",
        b"supervisor\t1\t\nR\t00\n",
        b"supervisor\t1\r\nR\t00\n",
        b"supervisor\t1 \nR\t00\n",
        b" supervisor\t1\nR\t00\n",
        b"\nsupervisor\t1\nR\t00\n",
        b"Supervisor\t1\nR\t00\n",
        b"supervisor\t01\nR\t00\n",
        b"supervisor\t\t1\nR\t00\n",
        b"supervisor\t1\0\nR\t00\n",
        b"\xEF\xBB\xBFsupervisor\t1\nR\t00\n",
    ];
    for script in bad {
        assert_eq!(printed(script), "no 6\n", "{script:?}"); // [Console.6]
    }
}

#[test]
fn empty_lines() {
    assert_eq!(run("\n"), "no 6\n"); // [Open: K1]
    assert_eq!(run("\n\n"), "no 6\nno 6\n");
    assert_eq!(run("R 00\n\nR 00\n"), "00000000\nno 6\n00000000\n");
    assert_eq!(run("R 00\n\n"), "00000000\nno 6\n");
    assert_eq!(run("R 00"), "00000000\n");
}

#[test]
fn lines_of_other_form() {
    let bad = [
        "R 00\r",
        "R 00\0",
        "\0",
        "R 00 ",
        "R 00 00",
        "R  00",
        " R 00",
        "R",
        "R ",
        "r 00",
        "X 00",
        "RR 00",
        "R00",
        "W 00",
        "W 00 ",
        "W 00 0000000",
        "W 00 000000000",
        "W 0 00000000",
        "W 000 00000000",
        "W 00 0000000g",
        "W 00 0000000a",
        "W 0a 00000000",
        "W 00 00000000 ",
        "W 00 00000000 0",
        "W  00 00000000",
        "W 00  00000000",
        "w 00 00000000",
        "M 000",
        "M 00 0000",
        "M 0000 0000",
        "M 000 000",
        "M 000 00000",
        "M 000 000f",
        "m 000 0000",
        "M 000 0000 ",
        "V 00",
        "V 0000",
        "V 00f",
        "v 000",
        "V 000 ",
        "V 000 0000",
        "T 000 00",
        "T 00 00 00000000",
        "T 0000 00 00000000",
        "T 000 0 00000000",
        "T 000 000 00000000",
        "T 000 00 0000000",
        "T 000 00 000000000",
        "T 000 00 00000000 ",
        "T 00f 00 00000000",
        "t 000 00 00000000",
        "T 000 00 0x000000",
        "R +0",
        "R -0",
        "R 0x",
        "R 0:",
        "R 0@",
        "R 0G",
        "R 0/",
        "supervisor 1",
    ];
    for line in bad {
        // The next line is still run. [Console.5]
        assert_eq!(run(&format!("{line}\nR 00\n")), "no 6\n00000000\n", "{line:?}");
        assert_eq!(run(line), "no 6\n", "{line:?}, last line without newline");
    }
}

#[test]
fn spaces_are_not_tabs() {
    assert_eq!(printed(b"supervisor\t1\nR 00\n"), "no 6\n");
    assert_eq!(printed(b"supervisor\t1\nR\t00\n"), "00000000\n");
    assert_eq!(printed(b"supervisor\t1\nW\t00 00000000\n"), "no 6\n");
}

#[test]
fn bytes_that_are_no_text() {
    assert_eq!(printed(b"supervisor\t1\n\xFF\xFE\nR\t00\n"), "no 6\n00000000\n");
    assert_eq!(printed(b"supervisor\t1\nR\t0\xB1\n"), "no 6\n");
    assert_eq!(printed(b"supervisor\t1\nR\t00\x0B\nR\t00\x0C\n"), "no 6\nno 6\n");
}

#[test]
fn a_bad_line_changes_nothing() {
    assert_eq!(run("W 01 00000002 \nR 01\nW 01 00000002\nR 01\n"), "no 6\n00000000\nok\n00000002\n");
}

/// A script of exactly `length` bytes, and the answers to all its lines.
fn long_script(length: usize) -> (Vec<u8>, String) {
    let mut script = b"supervisor\t1\n".to_vec();
    let mut expected = String::new();
    while script.len() + 5 <= length {
        script.extend(b"R\t00\n");
        expected.push_str("00000000\n");
    }
    if script.len() < length {
        script.resize(length, b'x');
        expected.push_str("no 6\n");
    }
    (script, expected)
}

#[test]
fn longest_script() {
    for length in [65_535, 65_536] {
        let (script, expected) = long_script(length);
        assert_eq!(script.len(), length);
        assert_eq!(printed(&script), expected); // [Console.1]
    }
    // One byte more, even if it is only the last newline. [Console.6] [Open: K3]
    let (script, _) = long_script(65_537);
    assert_eq!(printed(&script), "no 6\n");
    let (mut script, _) = long_script(65_536);
    script.push(b'\n');
    assert_eq!(printed(&script), "no 6\n");
    assert_eq!(printed(&vec![b'\n'; 65_537]), "no 6\n");
    assert_eq!(printed(&vec![b'\n'; 1_000_000]), "no 6\n");
}

#[test]
fn values_in_capitals() {
    assert_eq!(run("W 0A ABCDEF01\nR 0A\nM FFF BEEF\nV FFF\n"), "ok\nABCDEF01\nok\nBEEF\n");
    // [Console.8]
}

#[test]
fn declines_in_decimal() {
    assert_eq!(run("W 16 00000000\nR 16\nW FF 00000000\nR FF\n"), "no 3\nno 3\nno 3\nno 3\n"); // [Open: K4]
    assert_eq!(run("W 15 00007FBD\nW 15 00000002\nR 15\n"), "ok\nno 5\nno 3\n"); // [Test.5a] [Test.5b]
    assert_eq!(run("W 14 00000000\nR 14\n"), "no 3\n49242000\n"); // [State.8a] [State.8b]
    assert_eq!(run("T 000 80 00000000\nT 000 FF 00000000\n"), "no 5\nno 5\n");
    assert_eq!(run("W 09 00004000\nW 09 00003FFF\nR 09\n"), "no 5\nok\n00003FFF\n"); // [Bench.9]
    assert_eq!(
        run("W 00 00000001\nW 01 00000000\nM 000 0000\nV 000\nR 00\nW 00 80010000\nV 000\nR 00\n"),
        "ok\nno 4\nno 4\nno 4\n00180001\nok\n0000\n00000000\n"
    );
}

#[test]
fn outcomes() {
    // A tag prints its word. [Open: T6] [Console.7]
    assert_eq!(run("W 00 00000018\nT 000 00 00000000\n"), "ok\n000 000 000 000 000 0000 g10 - - - - - - - -\n");
    // A cleared event. [Main.6]
    assert_eq!(
        run("M 001 0F05\nW 01 00000002\nW 00 00000021\nT 001 00 00000000\nT 000 04 00000000\n"),
        "ok\nok\nok\n000 000 000 000 001 0F43 - - - - - - - - -\n000 000 000 000 000 0F63 c - - - - - - - -\n"
    );
}

#[test]
fn masks_in_their_order() {
    assert_eq!(
        run("W 01 00001FFE\nT ABC 00 00000000\nW 02 00000001\nW 00 00000001\nT FFF 00 00000000\nT FFF 20 00000000\n"),
        "ok\nABC 000 000 000 000 0000 - - - - - - - - -\nok\nok\n\
         000 001 000 FFE 000 0000 - - - - - - - - -\n000 000 FFF 000 000 0000 - - - - - - - - -\n"
    );
}

#[test]
fn finished_before_shown() {
    assert_eq!(
        run("W 0A 01000001\nW 00 00000018\nT 000 00 00000000\nT 000 00 00000000\nT 000 00 00000001\n"),
        "ok\nok\n000 000 000 000 000 0000 g10 - - - - - - - -\n\
         000 000 000 000 000 0000 - - - - - 10 10 10 10\n\
         000 000 000 000 000 0000 - 10 10 10 - - - - 10\n"
    );
}
