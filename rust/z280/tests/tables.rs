//! The disassembler against the nine decode tables that the machine is proved with: for each of 9 * 256 codes whether
//! there is such an instruction, what becomes of it, and its length.

use std::fs;
use std::path::Path;
use z280::{disassemble, Class};

/// The table's file, and its opening bytes with a displacement where one stands before the operation code.
const TABLES: [(&str, &[u8]); 9] = [
    ("none", &[]),
    ("cb", &[0xCB]),
    ("ed", &[0xED]),
    ("dd", &[0xDD]),
    ("fd", &[0xFD]),
    ("dd_cb", &[0xDD, 0xCB, 0x55]),
    ("fd_cb", &[0xFD, 0xCB, 0x55]),
    ("dd_ed", &[0xDD, 0xED]),
    ("fd_ed", &[0xFD, 0xED]),
];

/// Operation numbers that are not built (docs/ENCODINGS.md).
const NONE: u16 = 0;
const LEFT_OUT: u16 = 1;
const EXTENDED: u16 = 2;
const OPENS: u16 = 3;
const PORTS: std::ops::RangeInclusive<u16> = 6..=11;

/// The 256 entries of a table: lines such as `    23618, // ED 02`.
fn entries(name: &str) -> Vec<u16> {
    let path = Path::new(env!("CARGO_MANIFEST_DIR")).join(format!("../../crates/decode/src/{name}.rt"));
    let text = fs::read_to_string(&path).unwrap_or_else(|wrong| panic!("{}: {wrong}", path.display()));
    let entry = |line: &str| line.trim().split_once(", //").and_then(|(number, _)| number.parse().ok());
    let entries: Vec<u16> = text.lines().filter_map(entry).collect();
    assert_eq!(entries.len(), 256, "{name}");
    entries
}

fn class_of(op: u16) -> Class {
    match op {
        NONE => Class::Undefined,
        LEFT_OUT => Class::LeftOut,
        EXTENDED => Class::Extended,
        op if PORTS.contains(&op) => Class::Port,
        _ => Class::Built,
    }
}

#[test]
fn every_code_of_every_opening_agrees() {
    let mut compared = 0;
    let mut opens = 0;
    for (name, opening) in TABLES {
        for (code, entry) in entries(name).into_iter().enumerate() {
            let (op, follow) = (entry / 512, usize::from(entry % 8));
            if op == OPENS {
                opens += 1;
                continue;
            }
            let start = [opening, &[code as u8]].concat();
            let found = disassemble(&[&start[..], &[0x11; 8]].concat(), 0x1234);
            assert_eq!(found.class, class_of(op), "{start:02X?} {}", found.text);
            let fetched = start.len() + follow;
            match found.class {
                // The machine stops at the operation code; the text is of the whole instruction.
                Class::LeftOut | Class::Extended => assert!(found.length >= fetched, "{start:02X?}"),
                _ => assert_eq!(found.length, fetched, "{start:02X?} {}", found.text),
            }
            compared += 1;
        }
    }
    assert_eq!((compared, opens), (9 * 256 - 8, 8));
}

#[test]
fn bytes_that_end_early_are_cut_and_never_read_past() {
    for (name, opening) in TABLES {
        for (code, entry) in entries(name).into_iter().enumerate() {
            if entry / 512 == OPENS {
                continue;
            }
            let whole = [opening, &[code as u8], &[0x11; 8][..]].concat();
            let length = disassemble(&whole, 0).length;
            for cut in 0..length {
                let found = disassemble(&whole[..cut], 0);
                assert_eq!((found.class, found.length), (Class::Cut, cut), "{:02X?}", &whole[..cut]);
            }
            assert_eq!(disassemble(&whole[..length], 0), disassemble(&whole, 0));
        }
    }
}
