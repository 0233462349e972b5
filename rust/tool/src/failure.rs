use std::io;
use z280::Refusal;

/// Why a command stops before its end.
pub enum Failure {
    /// The command line is wrong: exit status 2.
    Usage(String),
    /// The machine refused, or a file is bad: exit status 1.
    Input(String),
    /// Who reads the output has gone away; no failure at all.
    Closed,
}

impl From<Refusal> for Failure {
    fn from(refusal: Refusal) -> Failure {
        Failure::Input(refusal.to_string())
    }
}

/// Writing the output; a file's own errors are named where it is opened.
impl From<io::Error> for Failure {
    fn from(error: io::Error) -> Failure {
        match error.kind() {
            io::ErrorKind::BrokenPipe => Failure::Closed,
            _ => Failure::Input(format!("the output can't be written: {error}")),
        }
    }
}
