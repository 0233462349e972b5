//! What `--help` says.

pub const OVERVIEW: &str = "\
z280 works guests of the proved Z280 machine.

  z280 trace FILE      run a guest step by step: address, bytes, mnemonic, what changed
  z280 run FILE        run a guest and tell how it ended
  z280 show FILE       a stored form in words
  z280 make FILE       make an image or a stored form of a program
  z280 disasm FILE     disassemble a program or an image's memory
  z280 help COMMAND    more about a command, with examples

A guest is one of
  a hex file (NAME.hex): text with bytes, addresses, registers and comments
  an image: a stored form of 101 bytes, then its frames of 4,096 bytes
  a stored form alone: its memory is then zero
and - is standard input.

Begin with:  z280 trace examples/guest.hex

Exit status: 0 fine, 1 the machine refused or a file is bad, 2 wrong usage.
";

const NUMBERS: &str = "
Numbers are 256, 0x100 or 100h. NAME is one of
  af bc de hl af2 bc2 de2 hl2 ix iy pc ssp usp    registers; 2 is the alternate
  bankaf bankx                                    bank bits, 0 or 1
  msr tcr iopage limit vector mmu                 control registers
  d0 to d31                                       page descriptors, 16 to 31 the system's
  frames                                          1 to 16
";

const RUN: &str = "\
z280 run FILE [--steps N] [--deliver] [--make-valid] [--set NAME=VALUE].. [--out IMAGE]

Runs the guest until an event stops it, or for N steps (1000). The first line has the event's number, the steps that
completed and PC; the second says it in words.

  --steps N          at most N steps; a trap or a page below counts as one too
  --deliver          hand traps (events 1, 3, 4, 7) to the guest's own handlers and go on
  --make-valid       on event 1 make the page valid and go on
  --set NAME=VALUE   change the guest before it starts
  --out IMAGE        keep what became of it

Examples
  z280 run guest.img
  z280 run guest.hex --steps 100000 --set bc=0x10 --out after.img
";

const TRACE: &str = "\
z280 trace FILE [--steps N] [--deliver] [--make-valid] [--set NAME=VALUE].. [--out IMAGE]

Runs the guest step by step (N steps at most, 100), one line each: address, bytes, mnemonic, then what changed:
  A=05 HL=1234           registers; PC is the next line's address
  F=S-H-N-               the six flags S Z H V N C, a letter where one is set
  [0200]=34 12           bytes of memory, by physical address
  D16=0019 MMU=0803      descriptors and control registers
Options are those of z280 run.

Examples
  z280 trace examples/guest.hex
  z280 trace guest.img --steps 20 --set pc=100h
";

const SHOW: &str = "\
z280 show FILE [--set NAME=VALUE]..

Tells in words what a stored form, an image or a hex file holds: registers, flags, banks, control registers,
descriptors.

Examples
  z280 show guest.img
  z280 show after.img
";

const MAKE: &str = "\
z280 make FILE --out IMAGE [--form FORM] [--at ADDRESS] [--frames N] [--pc ADDRESS] [--set NAME=VALUE]..

Makes an image (--out), a stored form (--form), or both, of a program. FILE is a hex file, or else a file of plain
bytes, which go to --at (0), where PC is set too. There are as many frames as the bytes need, or --frames.

A hex file has, line by line,
  ; a comment, to the end of its line
  ssp = 1000h       ; a part of the machine, as for --set
  @0100             ; where the next bytes go, hexadecimal
  3E 05 76          ; bytes, hexadecimal

Examples
  z280 make examples/guest.hex --out guest.img
  z280 make program.bin --at 100h --frames 4 --set ssp=2000h --out guest.img --form guest.form
";

const DISASM: &str = "\
z280 disasm FILE [--from ADDRESS] [--count N] [--at ADDRESS]

Lists instructions: of a hex file all its bytes; of an image 16 from PC on, in physical memory; of any other file all
its bytes, as if they stood at --at (0). With --at an image is taken as plain bytes too. A remark tells ports,
instructions that the machine leaves out, and bytes that are no instruction.

  --from ADDRESS     begin there
  --count N          so many instructions

Examples
  z280 disasm examples/guest.hex
  z280 disasm guest.img --from 100h --count 40
  z280 disasm program.bin --at 8000h
";

/// The help of a command.
pub fn of(command: &str) -> Option<String> {
    match command {
        "run" => Some(format!("{RUN}{NUMBERS}")),
        "trace" => Some(format!("{TRACE}{NUMBERS}")),
        "show" => Some(SHOW.to_string()),
        "make" => Some(format!("{MAKE}{NUMBERS}")),
        "disasm" => Some(DISASM.to_string()),
        _ => None,
    }
}
