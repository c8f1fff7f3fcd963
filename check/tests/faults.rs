//! Every fault of a text, with its number and place, and what memory holds after it.

use check::circuit::{Circuit, Making};
use check::format::{read, write, Fault, Memory, Place, Reading, Rooms, LONGEST_TEXT};

fn reading(text: &str) -> Reading {
    read(text.as_bytes(), Rooms::AMPLE)
}

fn fault(number: u8, line: u32, byte: u32) -> Fault {
    Fault::at(number, Place { line, byte })
}

const HEADER: &str = "2 4\n1 2\n1 1\n";

#[test]
fn faults_in_the_header_leave_memory_untouched() {
    let cases = [
        ("", fault(3, 1, 0)),
        ("\n\n", fault(3, 3, 2)),
        (" \t", fault(3, 1, 2)),
        ("2", fault(3, 1, 1)),
        ("2 \n", fault(3, 1, 2)),
        ("x 4", fault(3, 1, 0)),
        ("2 0", fault(5, 1, 2)),
        ("2 0 x", fault(5, 1, 2)),
        ("2 1048577", fault(5, 1, 2)),
        ("2 4 5\u{1}", fault(9, 1, 4)),
        ("2 4\u{1} 5", fault(2, 1, 3)),
        ("2a\u{1}", fault(3, 1, 0)),
        ("2 4", fault(3, 1, 3)),
        ("2 4\n\n", fault(3, 3, 5)),
        ("2 4\n65 x", fault(5, 2, 4)),
        ("2 4\n2 1\n", fault(3, 2, 7)),
        ("2 4\n1 0", fault(14, 2, 6)),
        ("2 4\n2 2 3", fault(14, 2, 8)),
        ("2 4\n2 4 1 1", fault(14, 2, 8)),
        ("2 4\n1 4 1", fault(9, 2, 8)),
        ("2 4\n1 4\n1 5", fault(14, 3, 10)),
        ("2 4\n1 4294967295", fault(14, 2, 6)),
        ("2 4\n1 2\n1 1 1", fault(9, 3, 12)),
    ];
    for (text, fault) in cases {
        let Reading { outcome, memory } = reading(text);
        assert_eq!((outcome, memory), (Err(fault), Memory::Untouched), "{text:?}");
    }
}

#[test]
fn faults_in_gate_lines_zero_memory() {
    let cases = [
        ("2 1 0 9 2 AND\n", fault(7, 4, 18)),
        ("\n2 1 0 9 2 AND\n", fault(7, 5, 19)),
        ("2 1 0 1 2 and", fault(4, 4, 22)),
        ("2 1 0 1 2", fault(4, 4, 21)),
        ("2 1 0 1 2 AND x", fault(9, 4, 26)),
        ("2 1 0 1 AND", fault(3, 4, 20)),
        ("2 1 0 1 ", fault(3, 4, 20)),
        ("2 1 0 9 2 AND \u{7f}", fault(2, 4, 26)),
        ("1 1 0 2 AND", fault(6, 4, 12)),
        ("  2 1 9 9 2 INV", fault(6, 4, 14)),
        ("0 0 MAND", fault(6, 4, 12)),
        ("3 1 0 1 0 2 MAND", fault(6, 4, 12)),
        ("2 1 0 3 2 AND", fault(7, 4, 18)),
        ("2 1 0 2 2 AND", fault(7, 4, 18)),
        ("2 1 4 9 0 AND", fault(7, 4, 16)),
        ("1 1 2 2 EQ", fault(7, 4, 16)),
        ("1 1 1 1 EQ", fault(8, 4, 18)),
        ("2 1 0 1 4 AND", fault(8, 4, 20)),
        ("4 2 0 1 0 1 2 2 MAND", fault(8, 4, 26)),
        ("4 2 0 1 2 1 2 2 MAND", fault(7, 4, 20)),
        ("", fault(10, 4, 12)),
        ("2 1 0 1 2 AND\n\n", fault(10, 6, 27)),
        ("2 1 0 1 2 AND\n2 1 0 1 3 AND\n\n \u{1}", fault(2, 7, 42)),
        ("2 1 0 1 2 AND\n2 1 0 1 3 AND\n\n x\u{1}", fault(10, 7, 42)),
    ];
    for (gates, fault) in cases {
        let Reading { outcome, memory } = reading(&format!("{HEADER}{gates}"));
        assert_eq!((outcome, memory), (Err(fault), Memory::Zeroed(4)), "{gates:?}");
    }
    let unmade = reading("1 4\n1 2\n1 1\n2 1 0 1 2 AND").outcome;
    assert_eq!(unmade, Err(fault(10, 4, 25)));
}

#[test]
fn short_memory_comes_after_the_header() {
    let text = format!("{HEADER}x");
    for rooms in [Rooms { table: 3, ranks: 9 }, Rooms { table: 9, ranks: 3 }] {
        let expected = Reading { outcome: Err(fault(11, 1, 2)), memory: Memory::Untouched };
        assert_eq!(read(text.as_bytes(), rooms), expected);
        assert_eq!(read(b"2 4\n1 2\n1 1 x", rooms).outcome, Err(fault(9, 3, 12)));
    }
    assert_eq!(read(text.as_bytes(), Rooms { table: 4, ranks: 4 }).outcome, Err(fault(3, 4, 12)));
}

#[test]
fn the_longest_text_and_one_byte_more() {
    let mut text = b"0 1\n1 1\n0\n".to_vec();
    text.resize(LONGEST_TEXT, b' ');
    let lone = Circuit::by_rank(1, &[], 0);
    assert_eq!(read(&text, Rooms::AMPLE).outcome, Ok(lone));
    text.push(1);
    let expected = Reading { outcome: Err(fault(1, 1, 0)), memory: Memory::Untouched };
    assert_eq!(read(&text, Rooms::AMPLE), expected);
}

#[test]
fn the_most_wires_pass() {
    let text = "0 1048576\n1 1048576\n1 1048576";
    assert_eq!(reading(text).outcome.map(|circuit| circuit.wires()), Ok(1_048_576));
}

#[test]
fn all_words_have_their_meaning() {
    let text = "6\t9\r\n02 1 1\n0\n\n1 1 1 8 EQ\n 1 1 8 7 INV\n1 1 7 6 EQW\n\
        2 1 0 1 2 XOR\n4 2 0 1 2 6 5 4 MAND\n2 1 4 4 3 AND";
    let expected = Circuit {
        makings: vec![
            Making::Input,
            Making::Input,
            Making::Constant(true),
            Making::Inversion(2),
            Making::Copy(3),
            Making::Sum(0, 1),
            Making::Product(0, 5),
            Making::Product(1, 4),
            Making::Product(7, 7),
        ],
        names: vec![0, 1, 8, 7, 6, 2, 5, 4, 3],
        inputs: 2,
        outputs: 0,
    };
    let Reading { outcome, memory } = reading(text);
    assert_eq!((outcome.as_ref(), memory), (Ok(&expected), Memory::Filled(9)));
    let written = "7 9\n1 2\n0\n\n1 1 1 8 EQ\n1 1 8 7 INV\n1 1 7 6 EQW\n\
        2 1 0 1 2 XOR\n2 1 0 2 5 AND\n2 1 1 6 4 AND\n2 1 4 4 3 AND\n";
    assert_eq!(String::from_utf8(write(&expected)).as_deref(), Ok(written));
}
