//! The disassembler against the manual's own lists: Appendix D (by code) and Appendix C (by name).
//!
//! Each file has the line of the manual's text, the code as printed and the name as printed. `damaged.txt` has the
//! rows that the scan damaged, and the misprints: what is meant, what the scan shows, what is wrong with it.

use std::collections::BTreeSet;
use z280::{disassemble, Class};

const D: &str = include_str!("data/appendix-d.txt");
const C: &str = include_str!("data/appendix-c.txt");
const DAMAGED: &str = include_str!("data/damaged.txt");

/// Rows of a file: what is split by tabs, without comments.
fn rows(file: &'static str) -> impl Iterator<Item = Vec<&'static str>> {
    file.lines().filter(|line| !line.is_empty() && !line.starts_with('#')).map(|line| line.split('\t').collect())
}

fn bytes(code: &str) -> Vec<u8> {
    code.as_bytes()
        .chunks(2)
        .map(|pair| u8::from_str_radix(std::str::from_utf8(pair).unwrap(), 16).unwrap_or_else(|_| panic!("{code}")))
        .collect()
}

/// A printed name in the disassembler's spelling, where the appendices have two names for one code.
fn spelled(printed: &str) -> String {
    let (name, operands) = printed.split_once(' ').unwrap_or((printed, ""));
    let pair = ["BC", "DE", "HL", "SP", "IX", "IY"];
    let between: Vec<&str> = operands.split(',').collect();
    match name {
        "INC" | "DEC" if pair.contains(&operands) => format!("{name}W {operands}"),
        "LDW" if between.iter().any(|side| pair.contains(side)) => format!("LD {operands}"),
        // LDA with a direct address has the code of LD immediate word (4310, 4802).
        "LDA" if operands.ends_with("(3344H)") => format!("LD {}", operands.replace(['(', ')'], "")),
        "IN" if operands == "HL,(C)" => format!("INW {operands}"),
        "OUT" if operands == "(C),HL" => format!("OUTW {operands}"),
        // The appendices' jumps stand at address 0 and print two digits of the target.
        "JR" | "DJNZ" | "JAF" | "JAR" => format!("{name} {}", operands.replace("77H", "0077H")),
        _ => printed.to_string(),
    }
}

/// What disassembling the code gives, and whether it needs exactly these bytes.
fn read(code: &str) -> String {
    let mut bytes = bytes(code);
    if disassemble(&bytes, 0).class == Class::Cut {
        // The appendices leave out an extended instruction's template of four bytes (Table B-4).
        bytes.extend([0; 4]);
        if disassemble(&bytes, 0).class != Class::Extended {
            return format!("{code} is too short");
        }
    }
    let found = disassemble(&bytes, 0);
    if found.length != bytes.len() {
        return format!("{} of {} bytes", found.length, code);
    }
    found.text
}

fn check(file: &'static str) -> Vec<String> {
    rows(file)
        .filter(|row| read(row[1]) != spelled(row[2]))
        .map(|row| format!("line {}: {} is printed {}, disassembled {}", row[0], row[1], row[2], read(row[1])))
        .collect()
}

#[test]
fn appendix_d_reads_back() {
    let wrong = check(D);
    assert!(wrong.is_empty(), "{}", wrong.join("\n"));
    assert_eq!(rows(D).count(), 1214);
}

#[test]
fn appendix_c_reads_back() {
    let wrong = check(C);
    assert!(wrong.is_empty(), "{}", wrong.join("\n"));
    assert_eq!(rows(C).count(), 1310);
}

#[test]
fn damaged_rows_read_back_as_they_are_meant() {
    for row in rows(DAMAGED) {
        let [_, code, meant, shown, reason] = row[..] else { panic!("five fields: {row:?}") };
        assert_eq!(read(code), spelled(meant), "{code}");
        assert_ne!(meant, shown, "{code} is not damaged");
        assert!(!reason.is_empty());
    }
}

/// Opening bytes with a displacement where one comes before the operation code.
const OPENINGS: [&[u8]; 9] =
    [&[], &[0xCB], &[0xED], &[0xDD], &[0xFD], &[0xDD, 0xCB, 0x55], &[0xFD, 0xCB, 0x55], &[0xDD, 0xED], &[0xFD, 0xED]];

/// Opening and operation code, without what follows.
fn key(code: &[u8]) -> Vec<u8> {
    let opening = OPENINGS.iter().filter(|opening| code.len() > opening.len() && code.starts_with(opening));
    let longest = opening.map(|opening| opening.len()).max().unwrap();
    code[..=longest].to_vec()
}

#[test]
fn no_instruction_is_missing_from_the_lists() {
    let listed: BTreeSet<Vec<u8>> = [D, C, DAMAGED].into_iter().flat_map(rows).map(|row| key(&bytes(row[1]))).collect();
    let mut known = BTreeSet::new();
    for opening in OPENINGS {
        for code in 0..=255 {
            let start = [opening, &[code]].concat();
            let found = disassemble(&[&start[..], &[0; 8]].concat(), 0);
            let opens = start != key(&[&start[..], &[0x55, 0]].concat());
            if found.class != Class::Undefined && !opens {
                known.insert(start);
            }
        }
    }
    let missing: Vec<_> = known.difference(&listed).map(|code| format!("{code:02X?}")).collect();
    assert!(missing.is_empty(), "not in a list: {}", missing.join("\n"));
    let invented: Vec<_> = listed.difference(&known).map(|code| format!("{code:02X?}")).collect();
    assert!(invented.is_empty(), "not known: {}", invented.join("\n"));
    assert_eq!(known.len(), 1383);
}
