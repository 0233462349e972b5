//! The worked examples of the manual's pages. Where a box is damaged or
//! contradicts its rule lines, the rule decides and a comment says so.

mod common;

use common::World;
use second::{step, Event};

/// Line, bytes, PC, steps, before, after. What `after` does not name must be
/// as before; PC must be past the instruction where it is not named.
type Example = (u32, &'static [u8], u16, u32, &'static str, &'static str);

#[rustfmt::skip]
const ADDRESSING: &[Example] = &[
    (963, &[0xED, 0x4B, 0x22, 0x5E], 0x100, 1, "bc=6789 5E22:01 5E23:03", "bc=0301"),
    (995, &[0xFD, 0x79, 0x1A, 0x23], 0x100, 1, "a=16 ix=01FE 2518:3D", "a=3D"),
    (1023, &[0xDD, 0x7E, 0xFF], 0x100, 1, "a=01 ix=203A 2039:3D", "a=3D"),
    (1067, &[0xFD, 0x78, 2, 0], 0x200, 1, "a=11 0206:22", "a=22"),
    (1091, &[0xDD, 0x78, 2, 0], 0x100, 1, "a=42 sp=8200 8202:65", "a=65"),
    (1120, &[0xDD, 0x79], 0x100, 1, "a=42 hl=1502 ix=FFFE 1500:65", "a=65"),
];

#[rustfmt::skip]
const LOADS: &[Example] = &[
    (3111, &[0xE3], 0x100, 1, "hl=2193 sp=8200 8200:2A 8201:B3", "hl=B32A 8200:93 8201:21"),
    (3170, &[0xED, 0xEF], 0x100, 1, "hl=1234", "hl=3412"),
    (3176, &[0xEB], 0x100, 1, "de=82E0 hl=38FF", "de=38FF hl=82E0"),
    (3220, &[0xED, 0x07], 0x100, 1, "a=0F b=03", "a=03 b=0F"),
    (3357, &[0xD9], 0x100, 1, "bc=23A0 de=1653 hl=24FF bc'=380F de'=E200 hl'=1FA3",
        "bc=380F de=E200 hl=1FA3 bc'=23A0 de'=1653 hl'=24FF bank_others=1"),
    (4054, &[0x7E], 0x100, 1, "a=0F hl=170C 170C:0B", "a=0B"),
    (4191, &[0x3E, 0x55], 0x100, 1, "a=67", "a=55"),
    (4195, &[0x78], 0x100, 1, "a=03 b=82", "a=82"),
    (4289, &[0xED, 0x2A, 4, 0], 0x100, 1, "hl=3000 ix=E324", "hl=E328"),
    (4345, &[0xED, 0x6E], 0x100, 1, "c=08 hl=553A", "io=3A"),
    (4775, &[0xDD, 0x01, 0x25, 0x38], 0x100, 1, "hl=2391 2391:E3 2392:01", "2391:25 2392:38"),
    (4840, &[0xED, 0x0C], 0x100, 1, "hl=1502 ix=FFFE 1500:A2 1501:03", "hl=03A2"),
    (4928, &[0x01, 0x24, 0x38], 0x100, 1, "bc=21F3", "bc=3824"),
    (4990, &[0xDD, 0xF9], 0x100, 1, "sp=238D ix=FFF0", "sp=FFF0"),
    // The boxes of POP and PUSH lost their values; the places are theirs.
    (5762, &[0xC1], 0x100, 1, "bc=1111 sp=FE32 FE32:3E FE33:09", "bc=093E sp=FE34"),
    (5809, &[0xC5], 0x100, 1, "bc=093E sp=FE34", "sp=FE32 FE32:3E FE33:09"),
];

#[rustfmt::skip]
const BLOCKS: &[Example] = &[
    (2350, &[0xED, 0xA9], 0x100, 1, "a=3B hl=1215 bc=0001 1215:3B", "hl=1214 bc=0000 f=01x0x01c"),
    (2408, &[0xED, 0xB9], 0x100, 3, "a=F3 hl=1118 bc=0007 1116:F3 1118:52", "hl=1115 bc=0004 f=01x0x11c"),
    (2470, &[0xED, 0xA1], 0x100, 1, "a=3B hl=1215 bc=0001 1215:3B", "hl=1216 bc=0000 f=01x0x01c"),
    (2525, &[0xED, 0xB1], 0x100, 3, "a=F3 hl=1118 bc=0007 1118:25 111A:F3", "hl=111B bc=0004 f=01x0x11c"),
    // The boxes of LDD and LDI print V clear with BC 0006; the rule lines set it.
    (4398, &[0xED, 0xA8], 0x100, 1, "hl=1111 de=2222 bc=0007 1111:88 2222:66",
        "hl=1110 de=2221 bc=0006 2222:88 f=szx0x10c"),
    (4459, &[0xED, 0xB8], 0x100, 3, "hl=1117 de=2225 bc=0003 1115:88 1116:36 1117:A5",
        "hl=1114 de=2222 bc=0000 2223:88 2224:36 2225:A5 f=szx0x00c"),
    (4535, &[0xED, 0xA0], 0x100, 1, "hl=1111 de=2222 bc=0007 1111:88 2222:66",
        "hl=1112 de=2223 bc=0006 2222:88 f=szx0x10c"),
    (4588, &[0xED, 0xB0], 0x100, 3, "hl=1125 de=2210 bc=0003 1125:5A 1126:B0 1127:76",
        "hl=1128 de=2213 bc=0000 2210:5A 2211:B0 2212:76 f=szx0x00c"),
];

#[rustfmt::skip]
const ARITHMETIC: &[Example] = &[
    (1691, &[0x8E], 0x100, 1, "a=48 hl=2454 f=szxhxvn1 2454:18", "a=61 f=00x1x000"),
    (1759, &[0xED, 0x4A], 0x100, 1, "bc=2308 hl=F038 f=szxhxvn1", "hl=1341 f=00x0x001"),
    (1830, &[0xED, 0x6D], 0x100, 1, "a=E2 hl=2384", "hl=2366 f=00x1x001"),
    (1891, &[0x86], 0x100, 1, "a=48 hl=2454 2454:18", "a=60 f=00x1x000"),
    (1962, &[0x09], 0x100, 1, "bc=2308 hl=F038", "hl=1340 f=szx0xv01"),
    (2037, &[0xED, 0xD6], 0x100, 1, "de=0010 hl=A123", "hl=A133 f=10x0x000"),
    (2096, &[0xA6], 0x100, 1, "a=48 hl=2454 2454:18", "a=08 f=00x1x000"),
    (2286, &[0xBE], 0x100, 1, "a=48 hl=2454 2454:18", "f=00x0x010"),
    (2585, &[0x2F], 0x100, 1, "a=28", "a=D7 f=szx1xv1c"),
    (2596, &[0xED, 0xD7], 0x100, 1, "de=0010 hl=A123", "f=10x0x010"),
    (2729, &[0x35], 0x100, 1, "hl=2454 2454:88", "2454:87 f=10x0x01c"),
    (2752, &[0x2B], 0x100, 1, "hl=2308", "hl=2307"),
    (3275, &[0xED, 0x64], 0x100, 1, "a=82 hl=5555", "hl=FF82"),
    (3316, &[0xED, 0x6C], 0x100, 1, "de=0123 hl=E320", "de=FFFF"),
    (3521, &[0x34], 0x100, 1, "hl=2454 2454:88", "2454:89 f=10x0x00c"),
    (3588, &[0x03], 0x100, 1, "bc=3F12", "bc=3F13"),
    (5052, &[0xED, 0xE0], 0x100, 1, "a=FE hl=1200", "hl=FFDC f=10xhx0n0"),
    (5114, &[0xED, 0xE1], 0x100, 1, "a=FE hl=02FB", "hl=01FC f=00xhx0n1"),
    (5176, &[0xED, 0xD3], 0x100, 1, "de=000A hl=0031", "de=0000 hl=01EA f=00xhx0n0"),
    (5235, &[0xED, 0xD2], 0x100, 1, "de=000A hl=0031", "de=0000 hl=01EA f=00xhx0n0"),
    // The boxes of NEG print C clear, and that of NEG A H and V too (document 01).
    (5294, &[0xED, 0x44], 0x100, 1, "a=28", "a=D8 f=10x1x111"),
    (5307, &[0xED, 0x4C], 0x100, 1, "hl=0121", "hl=FEDF f=10x1x011"),
    (5324, &[0xB6], 0x100, 1, "a=48 hl=2454 2454:18", "a=58 f=00x0x000"),
    (6641, &[0x9E], 0x100, 1, "a=48 hl=2454 f=szxhxvn1 2454:18", "a=2F f=00x1x010"),
    (6711, &[0xED, 0x52], 0x100, 1, "de=0011 hl=0100 f=szxhxvn1", "hl=00EE f=00x0x010"),
    (7031, &[0x96], 0x100, 1, "a=48 hl=2454 2454:18", "a=30 f=00x0x010"),
    (7097, &[0xED, 0xDE], 0x100, 1, "de=0010 hl=A123", "hl=A113 f=10x0x010"),
    (7219, &[0xAE], 0x100, 1, "a=48 hl=2454 2454:18", "a=50 f=00x0x100"),
];

#[rustfmt::skip]
const BITS: &[Example] = &[
    (2165, &[0xCB, 0x4F], 0x100, 1, "a=16", "f=s0x1xp0c"),
    (5867, &[0xCB, 0x8F], 0x100, 1, "a=16", "a=14"),
    (6096, &[0xCB, 0x12], 0x100, 1, "d=8F f=szxhxpn0", "d=1E f=00x0x101"),
    (6153, &[0x17], 0x100, 1, "a=76 f=szxhxpn1", "a=ED f=szx0xp00"),
    (6200, &[0xCB, 0x00], 0x100, 1, "b=88", "b=11 f=00x0x101"),
    (6249, &[0x07], 0x100, 1, "a=88", "a=11 f=szx0xp01"),
    (6451, &[0xCB, 0x0F], 0x100, 1, "a=31", "a=98 f=10x0x001"),
    (6849, &[0xCB, 0xCF], 0x100, 1, "a=14", "a=16"),
    (6855, &[0xCB, 0x25], 0x100, 1, "l=B1", "l=62 f=00x0x001"),
    (6906, &[0xDD, 0xCB, 3, 0x2E], 0x100, 1, "ix=1000 1003:B8", "1003:DC f=10x0x000"),
    (6982, &[0xCB, 0x38], 0x100, 1, "b=8F", "b=47 f=00x0x101"),
    (7159, &[0xCB, 0x36], 0x100, 1, "hl=0382 0382:17", "0382:FF f=0zxhxpnc"),
];

#[rustfmt::skip]
const PROGRAM: &[Example] = &[
    (2212, &[0xCD, 0x20, 0x25], 0x1630, 1, "sp=FF26", "pc=2520 sp=FF24 FF24:33 FF25:16"),
    (2275, &[0x3F], 0x100, 1, "f=szxhxvn0", "f=szx0xv01"),
    (2766, &[0xED, 0x77, 0x23], 0x100, 1, "msr=007F", "msr=005C"),
    (3048, &[0x10, 0xD8], 0x1076, 1, "b=12", "b=11 pc=1050"),
    (3940, &[0xDD, 0x20, 0xD7], 0x42F6, 1, "bank_others=1", "pc=42D0"),
    (3944, &[0xDA, 0x00, 0x50], 0x2684, 1, "f=szxhxvn1", "pc=5000"),
    (3997, &[0x20, 0x2A], 0x5FD4, 1, "f=s0xhxvnc", "pc=6000"),
    (5881, &[0xD0], 0x2528, 1, "f=szxhxvn0 sp=FF24 FF24:33 FF25:16", "pc=1633 sp=FF26"),
    (5990, &[0xED, 0x55], 0x8410, 1, "sp=FFC6 FFC6:7F FFC7:40 FFC8:72 FFC9:19", "pc=1972 sp=FFCA msr=407F"),
    // The box of RST prints the bytes one place too high and the PC before it.
    (6617, &[0xDF], 0x4620, 1, "sp=FFC4", "pc=0018 sp=FFC2 FFC2:21 FFC3:46"),
    (6839, &[0x37], 0x100, 1, "", "f=szx0xv01"),
];

fn check(examples: &[Example]) {
    for &(line, code, pc, steps, before, after) in examples {
        for f in [0x00, 0xFF] {
            let mut world = World::new(code, pc);
            world.m.set_f(f);
            world.set(before);
            let mut wanted = world.clone();
            wanted.m.pc = pc.wrapping_add(code.len() as u16);
            wanted.set(after);
            for _ in 0..steps {
                let event = step(&mut world.m, &mut world.memory);
                assert_eq!(event, Ok(Event::Completed), "line {line}");
            }
            assert_eq!(world.m, wanted.m, "line {line}, F {f:02X}");
            assert!(world.memory == wanted.memory, "line {line}: memory");
        }
    }
}

#[test]
fn addressing() {
    check(ADDRESSING);
}

#[test]
fn loads() {
    check(LOADS);
}

#[test]
fn blocks() {
    check(BLOCKS);
}

#[test]
fn arithmetic() {
    check(ARITHMETIC);
}

#[test]
fn bits() {
    check(BITS);
}

#[test]
fn program() {
    check(PROGRAM);
}
