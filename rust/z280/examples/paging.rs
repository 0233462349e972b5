//! Three guests in user mode, each with eight pages that may be kept out until they are first touched. The host brings
//! a page in on event 1 and makes it valid; the instruction then comes again. Shown for some choices of pages that
//! wait, and tried for all 256: steps, registers and memory of each guest do not depend on the choice. Status 1 where
//! they do.
//!
//! `examples/paging.c` is the same host in C.

use std::process::ExitCode;
use z280::{Event, Machine, Refusal, FRAME_BYTES};

const PAGES: usize = 8;
const SLICE: u16 = 500;
const USER: u16 = 0x4000;
const USER_TRANSLATE: u16 = 0x8000;
const LAST_FAULT: u16 = 0x1F;
const VALID: u16 = 8;
/// The choices that are shown, a bit for each page that waits.
const SHOWN: [u8; 6] = [0x00, 0xFF, 0x55, 0xAA, 0x0F, 0xF0];

struct Program {
    name: &'static str,
    does: &'static str,
    start: u16,
    code: &'static [u8],
}

const PROGRAMS: [Program; 3] = [
    Program {
        name: "copy",
        does: "moves 1,500 bytes over page borders and adds them up",
        start: 0x0000,
        code: &[
            0x21, 0x00, 0x1F, 0x01, 0xDC, 0x05, //     LD HL,1F00h; LD BC,1500
            0x3E, 0x07, 0x77, 0xC6, 0x1D, //           LD A,7; fill: LD (HL),A; ADD A,1Dh
            0x23, 0x0B, 0x57, 0x78, 0xB1, 0x7A, //     INCW HL; DECW BC; LD D,A; LD A,B; OR A,C; LD A,D
            0x20, 0xF5, //                             JR NZ,fill
            0x21, 0x00, 0x1F, 0x11, 0x80, 0x3F, //     LD HL,1F00h; LD DE,3F80h
            0x01, 0xDC, 0x05, 0xED, 0xB0, //           LD BC,1500; LDIR
            0x21, 0x80, 0x3F, 0x01, 0xDC, 0x05, //     LD HL,3F80h; LD BC,1500
            0x11, 0x00, 0x00, 0x7E, 0x83, 0x5F, //     LD DE,0; sum: LD A,(HL); ADD A,E; LD E,A
            0x30, 0x01, 0x14, 0x23, 0x0B, //           JR NC,over; INC D; over: INCW HL; DECW BC
            0x78, 0xB1, 0x20, 0xF4, 0xEB, //           LD A,B; OR A,C; JR NZ,sum; EX DE,HL
            0xED, 0x71, 0x00, 0x00, //                 SC 0
        ],
    },
    Program {
        name: "stack",
        does: "adds 1 to 1,500 by 1,500 nested calls",
        start: 0x5000,
        code: &[
            0x21, 0x00, 0x00, 0x01, 0xDC, 0x05, //     LD HL,0; LD BC,1500
            0xCD, 0x0D, 0x50, 0xED, 0x71, 0x00, 0x00, // CALL add; SC 0
            0x78, 0xB1, 0xC8, 0xC5, 0x0B, //           add: LD A,B; OR A,C; RET Z; PUSH BC; DECW BC
            0xCD, 0x0D, 0x50, 0xC1, 0x09, 0xC9, //     CALL add; POP BC; ADD HL,BC; RET
        ],
    },
    Program {
        name: "sieve",
        does: "counts the primes below 2,000; its code lies on two pages",
        start: 0x6FF0,
        code: &[
            0x11, 0x02, 0x00, 0x21, 0x00, 0x0F, //     LD DE,2; next: LD HL,0F00h
            0x19, 0x7E, 0xB7, 0x20, 0x0C, 0x19, //     ADD HL,DE; LD A,(HL); OR A,A; JR NZ,skip; mark: ADD HL,DE
            0xFD, 0xED, 0xF7, 0xD0, 0x16, //           CPW HL,16D0h
            0x30, 0x04, 0x36, 0x01, 0x18, 0xF4, //     JR NC,skip; LD (HL),1; JR mark
            0x13, 0x7B, 0xFE, 0x2D, 0x20, 0xE6, //     skip: INCW DE; LD A,E; CP A,45; JR NZ,next
            0x21, 0x02, 0x0F, 0x11, 0x00, 0x00, //     LD HL,0F02h; LD DE,0
            0x7E, 0xB7, 0x20, 0x01, 0x13,
            0x23, //     count: LD A,(HL); OR A,A; JR NZ,over; INCW DE; over: INCW HL
            0xFD, 0xED, 0xF7, 0xD0, 0x16, //           CPW HL,16D0h
            0x20, 0xF3, 0xEB, 0xED, 0x71, 0x00, 0x00, // JR NZ,count; EX DE,HL; SC 0
        ],
    },
];

struct Guest {
    machine: Machine,
    memory: Vec<u8>,
    /// The pages before they come in.
    disc: Vec<u8>,
    out: [bool; PAGES],
    order: Vec<u8>,
    steps: u32,
    done: bool,
}

/// A page lies in another frame than its own number's.
fn frame_of(page: usize) -> usize {
    PAGES - 1 - page
}

impl Guest {
    fn begin(program: &Program, waiting: u8) -> Result<Guest, Refusal> {
        let mut machine = Machine::reset(PAGES as u8)?;
        machine.set_pc(program.start);
        machine.set_usp(0x3001); // odd: a word lies on two pages at each border
        machine.set_msr(USER)?;
        machine.set_mmu(USER_TRANSLATE)?;
        let mut disc = vec![0; machine.memory_len()];
        disc[program.start.into()..][..program.code.len()].copy_from_slice(program.code);
        let memory = vec![0xDB; machine.memory_len()]; // no guest may see these bytes
        let out = std::array::from_fn(|page| waiting >> page & 1 == 1);
        let mut guest = Guest { machine, memory, disc, out, order: Vec::new(), steps: 0, done: false };
        for (page, out) in out.into_iter().enumerate() {
            let valid = if out { 0 } else { VALID };
            guest.machine.set_descriptor(page as u8, (frame_of(page) << 4) as u16 | valid)?;
            if !out {
                guest.bring_in(page);
            }
        }
        Ok(guest)
    }

    fn bring_in(&mut self, page: usize) {
        let frame = &mut self.memory[frame_of(page) * FRAME_BYTES..][..FRAME_BYTES];
        frame.copy_from_slice(&self.disc[page * FRAME_BYTES..][..FRAME_BYTES]);
        self.out[page] = false;
    }

    /// Works a slice of the guest's time; an event that this host does not expect is an error.
    fn work(&mut self) -> Result<(), String> {
        let ran = self.machine.run(&mut self.memory, SLICE).map_err(|refusal| refusal.to_string())?;
        self.steps += u32::from(ran.steps);
        match ran.event {
            Event::Completed => Ok(()),
            Event::AccessViolation { descriptor, .. } if self.out.get(usize::from(descriptor)) == Some(&true) => {
                self.bring_in(descriptor.into());
                self.order.push(descriptor);
                self.machine.make_valid(descriptor).map_err(|refusal| refusal.to_string())
            }
            Event::SystemCall { .. } => {
                self.done = true;
                Ok(())
            }
            event => Err(event.to_string()),
        }
    }

    /// Brings the rest in, and takes away what the host itself did: valid bits and the last faulting descriptor.
    fn settle(&mut self) -> Result<(), Refusal> {
        for page in 0..PAGES {
            if self.out[page] {
                self.bring_in(page);
            }
            let descriptor = self.machine.descriptor(page as u8)?;
            self.machine.set_descriptor(page as u8, descriptor & !VALID)?;
        }
        self.machine.set_mmu(self.machine.mmu() & !LAST_FAULT)
    }

    fn same(&self, other: &Guest) -> bool {
        self.steps == other.steps && self.machine == other.machine && self.memory == other.memory
    }

    fn show(&self, name: &str, waiting: u8) {
        let digit = |page| if waiting >> page & 1 == 1 { char::from(b'0' + page) } else { '.' };
        let pages: String = (0..PAGES as u8).map(digit).collect();
        let order: Vec<String> = self.order.iter().map(u8::to_string).collect();
        let came = if order.is_empty() { "-".to_string() } else { order.join(" ") };
        let (faults, steps, result) = (order.len(), self.steps, self.machine.hl());
        println!("{pages:<10} {name:<6} {faults:>6}  {came:<13} {steps:>7}   {result:04X}");
    }
}

/// Three guests by turns, a slice each, until all have made their system call.
fn run_all(waiting: u8) -> Result<Vec<Guest>, String> {
    let guests: Result<Vec<Guest>, Refusal> = PROGRAMS.iter().map(|program| Guest::begin(program, waiting)).collect();
    let mut guests = guests.map_err(|refusal| refusal.to_string())?;
    while guests.iter().any(|guest| !guest.done) {
        for guest in guests.iter_mut().filter(|guest| !guest.done) {
            guest.work()?;
        }
    }
    Ok(guests)
}

/// Tries all choices and gives how many runs differ from the one in which no page waits.
fn compare() -> Result<usize, String> {
    let mut plain: Vec<Guest> = Vec::new();
    let mut different = 0;
    for waiting in 0..=u8::MAX {
        let mut guests = run_all(waiting)?;
        for (guest, program) in guests.iter_mut().zip(&PROGRAMS) {
            if SHOWN.contains(&waiting) {
                guest.show(program.name, waiting);
            }
            guest.settle().map_err(|refusal| refusal.to_string())?;
        }
        if waiting == 0 {
            plain = guests;
        } else {
            different += guests.iter().zip(&plain).filter(|(guest, plain)| !guest.same(plain)).count();
        }
    }
    Ok(different)
}

fn main() -> ExitCode {
    for program in &PROGRAMS {
        println!("{:<6} {}", program.name, program.does);
    }
    println!("\npages that guest  faults  came in        steps   result (HL)\nwait");
    match compare() {
        Ok(0) => {
            println!("\nall 256 choices of waiting pages: same steps, same registers, same memory");
            ExitCode::SUCCESS
        }
        Ok(different) => {
            println!("\n{different} of 768 runs differ from the one in which no page waits");
            ExitCode::FAILURE
        }
        Err(event) => {
            println!("a guest stopped that should not have: {event}");
            ExitCode::FAILURE
        }
    }
}
