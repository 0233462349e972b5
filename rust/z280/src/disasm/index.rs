//! Formats after DD and FD.

use super::row::{built, undefined, Row};

pub(super) const DD: &[Row] = &[
    built("00100001", "LD IX,{nn}"),
    built("00ww0001", "LDW {w},{nn}"),
    built("00100000", "JAR {e}"),
    built("00101000", "JAF {e}"),
    built("11ww0001", "POP {w}"),
    built("11ww0101", "PUSH {w}"),
    built("11ccc010", "JP {c},(HL)"),
    built("11ccc100", "CALL {c},(HL)"),
    built("11001101", "CALL (HL)"),
];

pub(super) const FD: &[Row] = &[
    built("00100001", "LD IY,{nn}"),
    // INCW and DECW have no immediate operand.
    undefined("0011x011"),
    built("11100001", "POP IY"),
    built("11100101", "PUSH IY"),
    built("11110101", "PUSH {nn}"),
    built("11ccc010", "JP {c},{PC}"),
    built("11000011", "JP {PC}"),
    built("11ccc100", "CALL {c},{PC}"),
    built("11001101", "CALL {PC}"),
];

/// After both. Codes 4 and 5 are the halves of the index register, but H and L beside a short index (4233, 4247).
pub(super) const BOTH: &[Row] = &[
    built("00pp1001", "ADD {X},{P}"),
    built("00100010", "LD ({nn}),{X}"),
    built("00101010", "LD {X},({nn})"),
    built("00ww0011", "INCW {w}"),
    built("00ww1011", "DECW {w}"),
    built("00mmm100", "INC {m}"),
    built("00mmm101", "DEC {m}"),
    built("00mmm110", "LD {m},{n}"),
    undefined("01110110"),
    built("01rrr110", "LD {r},({X}{d})"),
    built("01110sss", "LD ({X}{d}),{s}"),
    built("010rr10o", "LD {r},{o}"),
    built("0111110o", "LD A,{o}"),
    built("0110m10o", "LD {m},{o}"),
    built("0110m0ss", "LD {m},{s}"),
    built("0110m111", "LD {m},A"),
    built("011110oo", "LD A,{o}"),
    built("10fffooo", "{f} A,{o}"),
    built("11100011", "EX (SP),{X}"),
    built("11101001", "JP ({X})"),
    built("11101011", "EX {X},HL"),
    built("11111001", "LD SP,{X}"),
];
