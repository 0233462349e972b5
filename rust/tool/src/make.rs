use crate::args::{Args, Known};
use crate::failure::Failure;
use crate::guest::{is_hex, named, parse_hex, read_file, write_file, Guest};
use std::io::Write;
use z280::FRAME_BYTES;

pub const KNOWN: Known = Known { flags: &[], values: &["at", "frames", "pc", "set", "out", "form"] };

/// Makes an image, a stored form, or both, of a program in a hex or binary file.
pub fn command(args: &Args, out: &mut dyn Write) -> Result<(), Failure> {
    let path = args.file()?;
    let (image, form) = (args.value("out"), args.value("form"));
    if image.is_none() && form.is_none() {
        return Err(Failure::Usage("say where it goes: --out IMAGE, --form FORM, or both".to_string()));
    }
    let mut guest = program(path, args)?;
    for name in ["frames", "pc"] {
        if let Some(value) = args.value(name) {
            guest.assign(&format!("{name}={value}"))?;
        }
    }
    for assignment in args.all("set") {
        guest.assign(assignment)?;
    }
    if let Some(form) = form {
        write_file(form, guest.machine.form())?;
    }
    if let Some(image) = image {
        guest.write_image(image)?;
        if image != "-" {
            let bytes = guest.machine.form().len() + guest.memory.len();
            writeln!(out, "{image}: {bytes} bytes, {} frame(s); next:  z280 trace {image}", guest.machine.frames())?;
        }
    }
    Ok(())
}

/// The program's bytes in memory: a hex file says where, a binary one goes to --at.
fn program(path: &str, args: &Args) -> Result<Guest, Failure> {
    let bytes = read_file(path)?;
    if is_hex(path) {
        if args.value("at").is_some() {
            return Err(Failure::Usage("a hex file says itself where its bytes go: @0100".to_string()));
        }
        return Guest::from_hex(&parse_hex(path, &bytes)?).map_err(|failure| named(path, failure));
    }
    let at = args.number("at", 0xFFFF)?.unwrap_or(0) as usize;
    let end = at + bytes.len();
    if end > 16 * FRAME_BYTES {
        return Err(Failure::Input(format!("{path}: {} bytes at {at:04X}h are more than 16 frames hold", bytes.len())));
    }
    let mut guest = Guest::with_frames(end)?;
    guest.place(at, &bytes)?;
    guest.assign(&format!("pc={at}"))?;
    Ok(guest)
}
