//! The tool as a person meets it: outputs and exit statuses.

use std::fs;
use std::path::{Path, PathBuf};
use std::process::{Command, Output, Stdio};

/// A file of this test's own, with this content.
fn file(name: &str, content: &[u8]) -> String {
    let path = path(name);
    fs::write(&path, content).unwrap();
    path.to_str().unwrap().to_string()
}

fn path(name: &str) -> PathBuf {
    Path::new(env!("CARGO_TARGET_TMPDIR")).join(name)
}

fn z280(words: &[&str]) -> Output {
    Command::new(env!("CARGO_BIN_EXE_z280")).args(words).stdin(Stdio::null()).output().unwrap()
}

/// What a command prints that ends well.
fn fine(words: &[&str]) -> String {
    let output = z280(words);
    let text = String::from_utf8(output.stdout).unwrap();
    let errors = String::from_utf8(output.stderr).unwrap();
    assert_eq!((output.status.code(), errors.as_str()), (Some(0), ""), "{words:?} {text}");
    text
}

/// What a command says that ends with this status.
fn fails(status: i32, words: &[&str]) -> String {
    let output = z280(words);
    let errors = String::from_utf8(output.stderr).unwrap();
    assert_eq!(output.status.code(), Some(status), "{words:?} {errors}");
    assert!(errors.starts_with("z280: "), "{errors}");
    errors
}

#[test]
fn help_teaches_and_is_no_failure() {
    let overview = fine(&["--help"]);
    assert_eq!(fine(&["help"]), overview);
    assert_eq!(fine(&["-h"]), overview);
    for command in ["run", "trace", "show", "make", "disasm"] {
        assert!(overview.contains(&format!("z280 {command} FILE")));
        let help = fine(&["help", command]);
        assert_eq!(fine(&[command, "--help"]), help);
        assert!(help.starts_with(&format!("z280 {command} FILE")) && help.contains("Examples\n  z280 "));
    }
}

#[test]
fn wrong_usage_is_status_2_and_says_what_to_do() {
    let guest = file("usage.hex", b"76");
    assert!(fails(2, &[]).contains("run, trace, show, make or disasm"));
    assert!(fails(2, &["dance"]).contains("no command 'dance'"));
    assert!(fails(2, &["help", "dance"]).contains("no command 'dance'"));
    assert!(fails(2, &["run"]).contains("name a file"));
    assert!(fails(2, &["run", &guest, &guest]).contains("one file at a time"));
    assert!(fails(2, &["run", &guest, "--fast"]).contains("no option --fast"));
    assert!(fails(2, &["run", &guest, "-s"]).contains("no option -s"));
    assert!(fails(2, &["run", &guest, "--deliver=1"]).contains("no option --deliver=1"));
    assert!(fails(2, &["run", &guest, "--steps"]).contains("--steps needs a value"));
    assert!(fails(2, &["run", &guest, "--steps", "many"]).contains("'many' is no number"));
    assert!(fails(2, &["run", &guest, "--set", "pc"]).contains("NAME=VALUE"));
    assert!(fails(2, &["run", &guest, "--set", "xx=1"]).contains("nothing is named 'xx'"));
    assert!(fails(2, &["run", &guest, "--set", "pc=65536"]).contains("too large"));
    assert!(fails(2, &["make", &guest]).contains("--out IMAGE"));
    assert!(fails(2, &["make", &guest, "--at", "1", "--out", "-"]).contains("@0100"));
    assert!(fails(2, &["trace"]).contains("z280 help trace"));
}

#[test]
fn bad_input_is_status_1_and_says_what_to_do() {
    let guest = file("bad.hex", b"76");
    assert!(fails(1, &["run", path("absent.img").to_str().unwrap()]).contains("can't be read"));
    assert!(fails(1, &["run", &file("short.img", &[1; 100])]).contains("refused 3"));
    assert!(fails(1, &["run", &file("empty.img", &[])]).contains("refused 3"));
    let version = fails(1, &["run", &file("version.img", &[2; 101])]);
    assert!(version.contains("refused 4") && version.contains("z280 make"));
    let mut form = vec![0; 101];
    form[0] = 1;
    form[100] = 1;
    assert!(fails(1, &["run", &file("padding.img", &form)]).contains("refused 5"));
    form[100] = 0;
    form[27] = 0x02;
    assert!(fails(1, &["show", &file("bits.img", &form)]).contains("refused 2"));
    form[27] = 0;
    form.resize(101 + 4095, 0);
    assert!(fails(1, &["run", &file("memory.img", &form)]).contains("refused 1"));
    assert!(fails(1, &["run", &file("word.hex", b"00\nzz")]).contains("line 2: 'zz' is no byte"));
    assert!(fails(1, &["run", &file("setting.hex", b"xx=1")]).contains("nothing is named 'xx'"));
    assert!(fails(1, &["run", &file("past.hex", b"frames=1\n@1000 00")]).contains("set frames=2"));
    assert!(fails(1, &["run", &file("text.hex", b"\xFF\xFE")]).contains("is text"));
    assert!(fails(1, &["run", &guest, "--set", "msr=8000h"]).contains("refused 2"));
    let folder = path("no/such/folder");
    assert!(fails(1, &["make", &guest, "--out", folder.to_str().unwrap()]).contains("can't be written"));
    assert!(fails(1, &["make", &file("long.bin", &[0; 65_537]), "--out", "-"]).contains("16 frames"));
    // System call with no stack in memory: the delivery is fatal.
    let call = file("fatal.hex", b"ssp=2001h\nED 71 34 12");
    assert!(fails(1, &["run", &call, "--deliver"]).contains("refused 9"));
}

#[test]
fn run_tells_event_steps_and_pc() {
    let guest = file("run.hex", b"00 76");
    assert_eq!(fine(&["run", &guest]), "stop 6 steps 1 pc 0002\nhalted\n");
    let endless = file("endless.hex", b"18 FE");
    assert!(fine(&["run", &endless]).starts_with("stop 0 steps 1000 pc 0000\n"));
    assert!(fine(&["run", &endless, "--steps", "200000"]).starts_with("stop 0 steps 200000 pc 0000\n"));
    assert!(fine(&["run", &endless, "--steps=0"]).starts_with("stop 0 steps 0 pc 0000\n"));
    assert!(fine(&["run", &guest, "--set", "pc=1"]).starts_with("stop 6 steps 0 pc 0002\n"));
}

#[test]
fn a_stored_form_alone_runs_on_zeros() {
    let mut form = vec![0; 101];
    form[0] = 1;
    let form = file("alone.form", &form);
    assert!(fine(&["run", &form, "--steps", "10"]).starts_with("stop 0 steps 10 pc 000A\n"));
    assert!(fine(&["show", &form]).starts_with("frames   1 (4096 bytes of memory)\n"));
}

#[test]
fn a_system_call_is_delivered_and_returns() {
    // SC 1234h; HALT; its handler at 0100h: POP HL; RETIL.
    let call = file("call.hex", b"ssp=0800h\nED 71 34 12 76\n@0050 00 00 00 01\n@0100 E1 ED 55");
    assert!(fine(&["run", &call]).starts_with("stop 4 steps 0 pc 0000\nsystem call 1234h, next address 0004h\n"));
    let ended = "stop 6 steps 2 pc 0005\nhalted\n";
    assert_eq!(fine(&["run", &call, "--deliver"]), format!("{ended}traps delivered 1, pages made valid 0\n"));
    let trace = fine(&["trace", &call, "--deliver"]);
    assert!(trace.contains("SC 1234H                event 4: system call 1234h"), "{trace}");
    assert!(trace.contains("-- trap delivered, PC=0100 SSP=07FA [07FA]=34 12"), "{trace}");
    assert!(trace.contains("0100  E1                POP HL                  HL=1234 SSP=07FC\n"), "{trace}");
    assert!(trace.ends_with(ended), "{trace}");
}

#[test]
fn pages_are_made_valid_when_wanted() {
    // The system's pages are translated: page 0 is frame 0 and waits, page 2 is frame 1 and protected.
    let text = b"frames=2\nmmu=0800h\nd16=0000h\nd18=001Ch\n3A 00 20 32 00 20 76";
    let guest = file("pages.hex", text);
    assert!(fine(&["run", &guest]).starts_with("stop 1 steps 0 pc 0000\naccess violation by descriptor 16"));
    let run = fine(&["run", &guest, "--make-valid"]);
    assert!(run.starts_with("stop 1 steps 1 pc 0003\naccess violation by descriptor 18"), "{run}");
    assert!(run.ends_with("pages made valid 1\n"), "{run}");
    let trace = fine(&["trace", &guest, "--make-valid"]);
    assert!(trace.starts_with("0000                    (not there)             MMU=0810 event 1"), "{trace}");
    assert!(trace.contains("-- page of descriptor 16 made valid D16=0008\n"), "{trace}");
    assert!(trace.contains("0003  32 00 20          LD (2000H),A            MMU=0812 event 1"), "{trace}");
}

#[test]
fn trace_has_a_line_a_step() {
    let guest = file("trace.hex", b"3E FF C6 01 F5 08 76\nssp=0800h");
    let wanted = "\
0000  3E FF             LD A,0FFH               A=FF
0002  C6 01             ADD A,01H               A=00 F=-ZH--C
0004  F5                PUSH AF                 SSP=07FE [07FE]=51
0005  08                EX AF,AF'               F=------ AF'=0051 BANKAF=1
0006  76                HALT                    event 6: halted
stop 6 steps 4 pc 0007
halted
";
    assert_eq!(fine(&["trace", &guest]), wanted);
    let two: Vec<String> = wanted.lines().take(2).map(String::from).collect();
    assert!(fine(&["trace", &guest, "--steps", "2"]).starts_with(&two.join("\n")));
}

#[test]
fn trace_reads_bytes_through_the_pages() {
    // User mode, separated: the program's page 0 is descriptor 8, whose frame's lowest bit is dropped.
    let text = b"frames=4\nmsr=4000h\nmmu=C000h\nd8=0038h\n@2000 3C 18 FD";
    let trace = fine(&["trace", &file("separated.hex", text), "--steps", "2"]);
    assert!(trace.starts_with("0000  3C                INC A                   A=01\n0001  18 FD"), "{trace}");
}

#[test]
fn make_and_run_agree_with_the_image() {
    let (image, form) = (path("made.img"), path("made.form"));
    let (image, form) = (image.to_str().unwrap(), form.to_str().unwrap());
    let program = file("made.bin", &[0x3E, 0x05, 0x76]);
    let words =
        ["make", &program, "--at", "100h", "--frames", "2", "--set", "ssp=2000h", "--out", image, "--form", form];
    assert!(fine(&words).contains("8293 bytes, 2 frame(s)"));
    let made = fs::read(image).unwrap();
    assert_eq!(made.len(), 101 + 2 * 4096);
    assert_eq!(fs::read(form).unwrap(), made[..101]);
    assert_eq!(made[101 + 0x100..][..3], [0x3E, 0x05, 0x76]);
    assert!(fine(&["show", form]).contains("PC   0100   SSP  2000"));
    let after = path("after.img");
    let after = after.to_str().unwrap();
    assert!(fine(&["run", image, "--out", after]).starts_with("stop 6 steps 1 pc 0103\n"));
    assert!(fine(&["show", after]).contains("AF   0500"));
    assert_eq!(fs::read(after).unwrap()[101..], made[101..]);
    let direct = Command::new(env!("CARGO_BIN_EXE_z280"))
        .args(["make", &program, "--at", "100h", "--frames", "2", "--set", "ssp=2000h", "--out", "-"])
        .output()
        .unwrap();
    assert_eq!(direct.stdout, made);
}

#[test]
fn an_image_comes_by_standard_input_too() {
    let image = path("stdin.img");
    fine(&["make", &file("stdin.hex", b"00 76"), "--out", image.to_str().unwrap()]);
    let output = Command::new(env!("CARGO_BIN_EXE_z280"))
        .args(["run", "-"])
        .stdin(fs::File::open(&image).unwrap())
        .output()
        .unwrap();
    assert_eq!(String::from_utf8(output.stdout).unwrap(), "stop 6 steps 1 pc 0002\nhalted\n");
}

#[test]
fn show_says_it_in_words() {
    let text = b"frames=3\naf=00D7h\nmsr=5001h\ntcr=6\nvector=0010h\nmmu=8803h\nd3=00AFh\nd16=0008h\nbankx=1\n00";
    let shown = fine(&["show", &file("show.hex", text)]);
    for line in [
        "frames   3 (12288 bytes of memory)",
        "flags    S sign, Z zero, H half carry, P/V parity or overflow, N subtract, C carry",
        "banks    AF first, BC DE HL alternate",
        "MSR      5001  user mode; break on halt; interrupt enables 01",
        "TCR      06    user I/O inhibited, extended unit",
        "vector   0010  table at physical address 001000",
        "MMU      8803  user translate, system translate; last faulting descriptor 3",
        "D3       00AF  user page, frame 00Ah; valid, write protected, cacheable, modified",
        "D16      0008  system page, frame 000h; valid",
        "30 of 32 descriptors are zero",
    ] {
        assert!(shown.lines().any(|shown| shown == line), "{line}\n{shown}");
    }
}

#[test]
fn disasm_lists_and_remarks() {
    let text = b"@0100 DB 12 27 ED 9F 00 00 00 00 DD 00 FD 78 F0 FF 20 FE ED";
    let listed = fine(&["disasm", &file("list.hex", text)]);
    let wanted = "\
0100  DB 12                   IN A,(12H)              ; stops with event 8
0102  27                      DAA                     ; left out: event 9
0103  ED 9F 00 00 00 00       EPUI                    ; extended: event 5
0109  DD 00                   DB 0DDH,00H             ; no such instruction: event 9
010B  FD 78 F0 FF             LD A,(PC+0FFF0H)        ; at 00FFH
010F  20 FE                   JR NZ,010FH
0111  ED                      DB 0EDH                 ; the bytes end here
";
    assert_eq!(listed, wanted);
    let bytes = file("list.bin", &[0x00, 0x76]);
    assert_eq!(fine(&["disasm", &bytes, "--at", "8000h", "--from", "8001h"]), "8001  76                      HALT\n");
    let image = path("list.img");
    let image = image.to_str().unwrap();
    fine(&["make", &bytes, "--out", image]);
    assert_eq!(fine(&["disasm", image]).lines().count(), 16);
    assert_eq!(fine(&["disasm", image, "--from", "1", "--count", "1"]), "0001  76                      HALT\n");
}

#[test]
fn the_example_guest_does_what_its_comments_say() {
    let guest = Path::new(env!("CARGO_MANIFEST_DIR")).join("../../examples/guest.hex");
    let guest = guest.to_str().unwrap();
    let trace = fine(&["trace", guest]);
    assert!(trace.ends_with("stop 6 steps 45 pc 0120\nhalted\n"), "{trace}");
    assert!(trace.contains("LD (0200H),HL           [0200]=37\n") && trace.contains("[0202]=D1 0B\n"), "{trace}");
    // Each line of the file that has bytes says its address and its instruction.
    let listed = fine(&["disasm", guest]);
    let text = fs::read_to_string(guest).unwrap();
    let told: Vec<&str> = text.lines().filter_map(|line| line.split_once("; 01")).map(|(_, told)| &told[..2]).collect();
    let found: Vec<&str> = listed.lines().map(|line| &line[2..4]).collect();
    assert_eq!(told, found);
}
