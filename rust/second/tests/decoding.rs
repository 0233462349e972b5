//! How many operation codes each opening has, against the hand count of the
//! pages, and how many bytes each takes.

use second::decode::codes::{all, instruction, OPENINGS, OPENING_NAMES};
use second::decode::Ins;

#[test]
fn counts() {
    // Built, port, extended; left out or undefined.
    let wanted = [
        [249, 2, 0, 1],
        [256, 0, 0, 0],
        [120, 33, 22, 81],
        [179, 0, 0, 75],
        [157, 0, 0, 97],
        [32, 0, 0, 224],
        [32, 0, 0, 224],
        [89, 14, 0, 153],
        [88, 12, 0, 156],
    ];
    let mut counted = [[0; 4]; 9];
    for (opening, code) in all() {
        let class = match instruction(opening, code).0 {
            Ins::Port { .. } => 1,
            Ins::Extended => 2,
            Ins::None => 3,
            _ => 0,
        };
        counted[opening][class] += 1;
    }
    for (opening, name) in OPENING_NAMES.iter().enumerate() {
        assert_eq!(counted[opening], wanted[opening], "opening {name}");
    }
}

#[test]
fn nothing_is_fetched_after_a_code_that_is_no_instruction() {
    for (opening, code) in all() {
        let (ins, taken) = instruction(opening, code);
        if matches!(ins, Ins::None | Ins::Extended) {
            assert_eq!(taken, OPENINGS[opening].len() + 1, "{} {code:02X}", OPENING_NAMES[opening]);
        }
    }
}

#[test]
fn lengths() {
    // Opening's number, code, bytes; with the page's line.
    for (opening, code, length, line) in [
        (0, 0x00, 1, 5312),
        (0, 0x36, 2, 4191),
        (3, 0x36, 4, 4191),
        (3, 0x3E, 5, 4191),
        (4, 0x0E, 5, 4191),
        (3, 0x1E, 3, 4191),
        (3, 0x01, 4, 4775),
        (3, 0x11, 6, 4775),
        (3, 0x31, 6, 4775),
        (3, 0x28, 3, 3934),
        (4, 0xF5, 4, 5834),
        (5, 0x06, 4, 6200),
        (2, 0x71, 4, 6782),
        (2, 0x7F, 3, 3098),
        (8, 0xF8, 4, 5081),
        (8, 0xF6, 5, 2037),
    ] {
        assert_eq!(instruction(opening, code).1, length, "line {line}");
    }
}
