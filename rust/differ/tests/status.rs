//! The program's exit statuses: 0 where all is met, 1 where an error was
//! planted, 2 for wrong usage.

use std::process::Command;

/// Enough that every code ends in every way that is asked of it.
const WHOLE: &str = "400000";

fn status(arguments: &[&str]) -> Option<i32> {
    let output = Command::new(env!("CARGO_BIN_EXE_differ")).args(arguments).output().expect("it starts");
    output.status.code()
}

#[test]
fn no_mismatch_and_no_gap() {
    assert_eq!(status(&["--cases", WHOLE]), Some(0));
}

#[test]
fn each_planted_error_is_found() {
    for wrong in ["form", "memory", "answer", "refusal", "guard", "guest"] {
        assert_eq!(status(&["--cases", "5000", "--wrong", wrong]), Some(1), "{wrong}");
        // It is planted in a step or a guest: without them there is none to find.
        assert_eq!(status(&["--cases", "5000", "--only", "valid", "--wrong", wrong]), Some(0), "{wrong}");
    }
}

#[test]
fn wrong_usage() {
    for arguments in [&["--cases"][..], &["--cases", "x"], &["--only", "x"], &["--wrong", "x"], &["--x", "1"]] {
        assert_eq!(status(arguments), Some(2), "{arguments:?}");
    }
}
