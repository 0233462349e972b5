use crate::args::Args;
use crate::failure::Failure;
use crate::hexfile::HexFile;
use crate::names::assign;
use std::fs;
use std::io::{self, Read, Write};
use z280::{Machine, Refusal, FORM_BYTES, FRAME_BYTES};

/// A machine and its memory.
pub struct Guest {
    pub machine: Machine,
    pub memory: Vec<u8>,
}

impl Guest {
    /// A hex file, an image, or a stored form alone, whose memory is then zero; with the settings of the command line.
    pub fn read(path: &str, args: &Args) -> Result<Guest, Failure> {
        let bytes = read_file(path)?;
        let mut guest = if is_hex(path) {
            Guest::from_hex(&parse_hex(path, &bytes)?).map_err(|failure| named(path, failure))?
        } else {
            Guest::from_image(&bytes).map_err(|refusal| not_an_image(path, refusal))?
        };
        for assignment in args.all("set") {
            guest.assign(assignment)?;
        }
        Ok(guest)
    }

    /// A stored form and exactly its frames, or none of them.
    pub fn from_image(bytes: &[u8]) -> Result<Guest, Refusal> {
        let (form, memory) = bytes.split_at(bytes.len().min(FORM_BYTES));
        let machine = Machine::from_form(form)?;
        let memory = match memory.len() {
            0 => vec![0; machine.memory_len()],
            length if length == machine.memory_len() => memory.to_vec(),
            _ => return Err(Refusal::MemoryLength),
        };
        Ok(Guest { machine, memory })
    }

    /// The reset record with as many frames as the bytes need, then the file's settings.
    pub fn from_hex(file: &HexFile) -> Result<Guest, Failure> {
        let mut guest = Guest::with_frames(file.end())?;
        for assignment in &file.settings {
            guest.assign(assignment).map_err(|failure| match failure {
                Failure::Usage(message) => Failure::Input(message),
                other => other,
            })?;
        }
        for (address, bytes) in &file.pieces {
            guest.place(*address, bytes)?;
        }
        Ok(guest)
    }

    /// The reset record with the frames that so many bytes need.
    pub fn with_frames(bytes: usize) -> Result<Guest, Failure> {
        let frames = bytes.div_ceil(FRAME_BYTES).max(1);
        let machine = Machine::reset(frames.min(255) as u8)?;
        let memory = vec![0; machine.memory_len()];
        Ok(Guest { machine, memory })
    }

    /// NAME=VALUE; where it changes the frames, memory grows by zeros or loses its end.
    pub fn assign(&mut self, assignment: &str) -> Result<(), Failure> {
        assign(&mut self.machine, assignment)?;
        self.memory.resize(self.machine.memory_len(), 0);
        Ok(())
    }

    pub fn place(&mut self, address: usize, bytes: &[u8]) -> Result<(), Failure> {
        let end = address + bytes.len();
        let Some(room) = self.memory.get_mut(address..end) else {
            let frames = self.machine.frames();
            return Err(Failure::Input(format!(
                "bytes up to {end:04X}h lie past {frames} frame(s); set frames={}",
                end.div_ceil(FRAME_BYTES)
            )));
        };
        room.copy_from_slice(bytes);
        Ok(())
    }

    pub fn write_image(&self, path: &str) -> Result<(), Failure> {
        write_file(path, &[&self.machine.form()[..], &self.memory].concat())
    }
}

pub fn is_hex(path: &str) -> bool {
    path.to_ascii_lowercase().ends_with(".hex")
}

pub fn parse_hex(path: &str, bytes: &[u8]) -> Result<HexFile, Failure> {
    let text = std::str::from_utf8(bytes).map_err(|_| Failure::Input(format!("{path}: a .hex file is text")))?;
    HexFile::parse(text).map_err(|failure| named(path, failure))
}

pub fn named(path: &str, failure: Failure) -> Failure {
    match failure {
        Failure::Input(message) => Failure::Input(format!("{path}: {message}")),
        other => other,
    }
}

fn not_an_image(path: &str, refusal: Refusal) -> Failure {
    let mut message = format!("{path}: {refusal}");
    if refusal == Refusal::MemoryLength {
        message += "; behind a form of 101 bytes come all the frames that it names, or nothing";
    }
    message += "\nAn image is a stored form and its frames. Of a program in bytes make one first:";
    message += &format!("  z280 make {path} --out guest.img");
    Failure::Input(message)
}

/// The bytes of a file, or of standard input for `-`.
pub fn read_file(path: &str) -> Result<Vec<u8>, Failure> {
    let mut bytes = Vec::new();
    let read = match path {
        "-" => io::stdin().lock().read_to_end(&mut bytes).map(|_| bytes),
        _ => fs::read(path),
    };
    read.map_err(|error| Failure::Input(format!("{path} can't be read: {error}")))
}

/// Writes a file, or standard output for `-`.
pub fn write_file(path: &str, bytes: &[u8]) -> Result<(), Failure> {
    if path == "-" {
        return Ok(io::stdout().lock().write_all(bytes)?);
    }
    fs::write(path, bytes).map_err(|error| Failure::Input(format!("{path} can't be written: {error}")))
}
