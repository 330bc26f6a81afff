//! Pairs of writes of which document 02 claims nothing, and whose order matters: that the tests of the others can fail.
//! [Order.2]

use super::order::{in_order, Write};
use super::*;

/// What the two orders leave: each record and memory.
fn both(record: &Supervisor, [a, b]: [Write; 2]) -> [(Supervisor, Vec<u16>); 2] {
    [[a, b], [b, a]].map(|order| {
        let (_, record, memory) = in_order(record, &[0; MEMORY_WORDS], order);
        (record, memory)
    })
}

#[test]
fn two_writes_to_one_register() {
    for number in 1..=16 {
        for (a, b) in [((0, 4), (0, 4)), ((2, 2), (3, 1)), ((0, 4), (1, 3))] {
            let writes = [Write::Bytes(number, a, 1), Write::Bytes(number, b, 3)];
            let [forth, back] = both(&Supervisor::fresh(), writes);
            assert_ne!(forth, back, "register {number}");
        }
    }
}

#[test]
fn disjoint_runs_of_one_factor() {
    for (input, number) in (2..=9).enumerate() {
        for at in 1..=3 {
            // The bytes are the same in the end, and BYTE(3) loads what stands when it is written. [Bytes.4a]
            let (high, low) = (Write::Bytes(number, (0, at), 0x0107), Write::Bytes(number, (at, 4 - at), 0x0107));
            let [(forth, _), (back, _)] = both(&Supervisor::fresh(), [high, low]);
            assert_eq!(forth.factors, back.factors);
            assert_eq!(forth.counters[input], 0x0107);
            assert_eq!(back.counters[input], if at == 3 { 7 } else { 0x0107 });
        }
    }
}

#[test]
fn a_setting_and_the_csr() {
    for number in 1..=16 {
        let writes = [Write::Plain(number, 1), Write::Plain(Supervisor::CSR, csr::GO)];
        let (answers, ..) = in_order(&Supervisor::fresh(), &[], writes);
        assert_eq!(answers, [Ok(()), Ok(())]);
        let (answers, ..) = in_order(&Supervisor::fresh(), &[], [writes[1], writes[0]]);
        assert_eq!(answers, [Ok(()), Err(4)]); // [Declines.2c]
    }
    // RESET loads what stands. [CSRWrite.2d]
    let writes = [Write::Bytes(2, (2, 1), 0x0100), Write::Plain(Supervisor::CSR, csr::RESET)];
    let [(forth, _), (back, _)] = both(&Supervisor::fresh(), writes);
    assert_eq!((forth.factors, forth.counters[0]), (back.factors, 0x0100));
    assert_eq!(back.counters[0], 0);
}

#[test]
fn two_writes_to_one_place() {
    for place in [0, 1, 4_095] {
        let [(_, forth), (_, back)] = both(&Supervisor::fresh(), [Write::Place(place, 1), Write::Place(place, 2)]);
        assert_eq!((forth[place as usize], back[place as usize]), (2, 1));
    }
}
