//! Every call and every refusal, in document 01's order, through the slices of `z280::calls` and through `Machine`.

use z280::{calls, Direction, Event, Machine, Refusal, FORM_BYTES, FRAME_BYTES};

fn memory(frames: usize) -> Vec<u8> {
    vec![0; frames * FRAME_BYTES]
}

/// A form of one frame that a call accepts.
fn form() -> [u8; FORM_BYTES] {
    *Machine::reset(1).unwrap().form()
}

/// A form with one byte changed.
fn with(at: usize, value: u8) -> [u8; FORM_BYTES] {
    let mut form = form();
    form[at] = value;
    form
}

/// A call on form, memory, and answer or event.
type Call = fn(&mut [u8], &mut [u8], &mut [u8]) -> u8;

/// Each call that reads a form, on this form and this many bytes of memory and of answer or event.
fn each_call(form: &[u8], memory: usize, answer: usize) -> [u8; 3] {
    let calls: [Call; 3] = [
        |form, memory, answer| calls::step(form, memory, answer),
        |form, memory, answer| calls::run(form, memory, 10, answer),
        |form, memory, answer| calls::deliver(form, memory, answer),
    ];
    calls.map(|call| {
        let (mut lent, mut memory, mut answer) = (form.to_vec(), vec![0xA5; memory], vec![0x5A; answer]);
        let refusal = call(&mut lent, &mut memory, &mut answer);
        if refusal != 0 {
            assert_eq!(lent, form, "a refused call changed the form");
            assert!(memory.iter().all(|&byte| byte == 0xA5), "a refused call changed memory");
            assert!(answer.iter().all(|&byte| byte == 0x5A), "a refused call changed the answer");
        }
        refusal
    })
}

#[test]
fn form_refusals_come_first_and_in_order() {
    assert_eq!(each_call(&form()[..100], 0, 0), [3; 3]);
    assert_eq!(each_call(&[&form()[..], &[0]].concat(), 0, 0), [3; 3]);
    assert_eq!(each_call(&[], 0, 0), [3; 3]);
    // Version, a bit that may not be set, padding: all three are wrong, and the first is told.
    assert_eq!(each_call(&[0xFF; FORM_BYTES], 0, 0), [4; 3]);
    let mut all_set = [0xFF; FORM_BYTES];
    all_set[0] = 1;
    assert_eq!(each_call(&all_set, 0, 0), [2; 3]);
    assert_eq!(each_call(&with(100, 0x01), 0, 0), [5; 3]);
    for refused in [&form()[..100], &[0xFF; FORM_BYTES], &all_set, &with(100, 0x40)] {
        let mut lent = refused.to_vec();
        let number = calls::make_valid(&mut lent, 255);
        assert_eq!(Machine::from_form(refused), Err(Refusal::from_number(number).unwrap()));
        assert_eq!(lent, refused);
    }
}

#[test]
fn memory_then_answer_then_the_calls_own() {
    assert_eq!(each_call(&form(), 4095, 0), [1; 3]);
    assert_eq!(each_call(&form(), 0, 12), [1; 3]);
    assert_eq!(each_call(&form(), 2 * 4096, 12), [1; 3]);
    assert_eq!(each_call(&form(), 4096, 11), [3; 3]);
    assert_eq!(each_call(&form(), 4096, 13), [3; 3]);
    // An event of 5A5Ah can't be delivered; step and run write over those bytes.
    assert_eq!(each_call(&form(), 4096, 12), [0, 0, 8]);
}

#[test]
fn reset_looks_at_no_old_byte() {
    let mut form = [0xFF; FORM_BYTES];
    assert_eq!(calls::reset(&mut form[..100], 0), 3);
    assert_eq!(calls::reset(&mut form, 0), 1);
    assert_eq!(calls::reset(&mut form, 17), 1);
    assert_eq!(form, [0xFF; FORM_BYTES]);
    for frames in 1..=16 {
        assert_eq!(calls::reset(&mut form, frames), 0);
        assert_eq!(form[..2], [1, (frames - 1) << 4]);
        assert_eq!(form[2..], [0; FORM_BYTES - 2]);
    }
}

#[test]
fn setters_refuse_what_a_call_would() {
    let mut machine = Machine::reset(1).unwrap();
    for bit in 0..16 {
        let value = 1 << bit;
        let allowed = |mask: u16| if mask & value != 0 { Ok(()) } else { Err(Refusal::ReservedBit) };
        assert_eq!(machine.set_msr(value), allowed(0x537F));
        assert_eq!(machine.set_mmu(value), allowed(0xCC1F));
        assert_eq!(machine.set_limit(value), allowed(0xFFF0));
        assert_eq!(machine.set_vector(value), allowed(0xFFF0));
        assert_eq!(
            machine.set_tcr(value as u8),
            if value as u8 & !7 == 0 { Ok(()) } else { Err(Refusal::ReservedBit) }
        );
        assert_eq!(Machine::from_form(machine.form()), Ok(machine.clone()));
    }
    assert_eq!(machine.set_frames(0), Err(Refusal::MemoryLength));
    assert_eq!(machine.set_frames(17), Err(Refusal::MemoryLength));
    assert_eq!(machine.set_frames(16), Ok(()));
    assert_eq!(machine.memory_len(), 65_536);
    assert_eq!(machine.descriptor(32), Err(Refusal::NoDescriptor));
}

type Get = fn(&Machine) -> u16;
type Set = fn(&mut Machine, u16);

/// Registers of 16 bits.
const REGISTERS: [(Get, Set); 13] = [
    (Machine::af, Machine::set_af),
    (Machine::bc, Machine::set_bc),
    (Machine::de, Machine::set_de),
    (Machine::hl, Machine::set_hl),
    (Machine::af_alt, Machine::set_af_alt),
    (Machine::bc_alt, Machine::set_bc_alt),
    (Machine::de_alt, Machine::set_de_alt),
    (Machine::hl_alt, Machine::set_hl_alt),
    (Machine::ix, Machine::set_ix),
    (Machine::iy, Machine::set_iy),
    (Machine::pc, Machine::set_pc),
    (Machine::ssp, Machine::set_ssp),
    (Machine::usp, Machine::set_usp),
];

/// A machine whose registers hold A000h and their number, its descriptors B000h and theirs.
fn numbered() -> Machine {
    let mut machine = Machine::reset(1).unwrap();
    for (number, (_, set)) in REGISTERS.into_iter().enumerate() {
        set(&mut machine, 0xA000 + number as u16);
    }
    for number in 0..32 {
        machine.set_descriptor(number, 0xB000 + u16::from(number)).unwrap();
    }
    machine
}

#[test]
fn each_register_has_its_own_place() {
    let mut machine = numbered();
    machine.set_bank_others(true);
    machine.set_iopage(0xC5);
    for (number, (get, _)) in REGISTERS.into_iter().enumerate() {
        assert_eq!(get(&machine), 0xA000 + number as u16);
    }
    for number in 0..32 {
        assert_eq!(machine.descriptor(number).unwrap(), 0xB000 + u16::from(number));
    }
    assert_eq!((machine.bank_af(), machine.bank_others(), machine.iopage()), (false, true, 0xC5));
    assert_eq!((machine.frames(), machine.msr(), machine.tcr(), machine.mmu()), (1, 0, 0, 0));
}

/// Where the library itself keeps a register shows by what an instruction does with it: here all are pushed.
#[test]
fn register_names_are_the_librarys() {
    let mut machine = numbered();
    machine.set_pc(0);
    machine.set_ssp(0x0800);
    let mut memory = memory(1);
    let program = [
        0xF5, 0xC5, 0xD5, 0xE5, // PUSH AF, BC, DE, HL
        0x08, 0xD9, 0xF5, 0xC5, 0xD5, 0xE5, // EX AF,AF'; EXX; PUSH AF, BC, DE, HL
        0xDD, 0xE5, 0xFD, 0xE5, // PUSH IX, IY
        0xED, 0x87, 0xE5, 0x76, // LDCTL HL,USP; PUSH HL; HALT
    ];
    memory[..program.len()].copy_from_slice(&program);
    let ran = machine.run(&mut memory, 100).unwrap();
    assert_eq!((ran.event, ran.steps), (Event::Halted, 14));
    let pushed: Vec<u16> =
        memory[0x0800 - 22..0x0800].chunks(2).rev().map(|word| u16::from_le_bytes([word[0], word[1]])).collect();
    let wanted = [0, 1, 2, 3, 4, 5, 6, 7, 8, 9, 12].map(|number| 0xA000 + number);
    assert_eq!(pushed, wanted);
    assert!(machine.bank_af() && machine.bank_others());
    assert_eq!((machine.ssp(), machine.pc()), (0x0800 - 22, program.len() as u16));
}

/// LDCTL HL,(C) with the number of each control register (4353).
#[test]
fn control_register_names_are_the_librarys() {
    let mut machine = Machine::reset(1).unwrap();
    machine.set_msr(0x1301).unwrap();
    machine.set_tcr(5).unwrap();
    machine.set_iopage(0xC5);
    machine.set_limit(0x1230).unwrap();
    machine.set_vector(0x4560).unwrap();
    let mut memory = memory(1);
    memory[..2].copy_from_slice(&[0xED, 0x66]);
    for (number, value) in [(0x00, 0x1301), (0x10, 5), (0x08, 0xC5), (0x04, 0x1230), (0x06, 0x4560)] {
        let mut asked = machine.clone();
        asked.set_bc(number);
        assert_eq!(asked.step(&mut memory), Ok(Event::Completed));
        assert_eq!(asked.hl(), value, "control register {number:02X}h");
    }
}

/// With one page valid, only a fetch from that page passes: in user mode to a privileged instruction, in system mode
/// to its end.
#[test]
fn descriptor_numbers_are_the_librarys() {
    let mut memory = memory(1);
    memory[..2].copy_from_slice(&[0xED, 0x66]); // LDCTL HL,(C)
    for page in 0..32 {
        for fetched in 0..32 {
            let mut machine = Machine::reset(1).unwrap();
            machine.set_msr(if fetched < 16 { 0x4000 } else { 0 }).unwrap();
            machine.set_mmu(0x8800).unwrap();
            machine.set_descriptor(page, 0x0008).unwrap();
            let address = u16::from(fetched % 16) << 12;
            machine.set_pc(address);
            let passed = if fetched < 16 { Event::Privileged { address } } else { Event::Completed };
            let violation = Event::AccessViolation { descriptor: fetched, address };
            assert_eq!(machine.step(&mut memory), Ok(if fetched == page { passed } else { violation }));
        }
    }
}

/// Puts the bytes at address 0, makes one step and gives the event.
fn event_of(bytes: &[u8], prepare: fn(&mut Machine)) -> Event {
    let mut machine = Machine::reset(1).unwrap();
    prepare(&mut machine);
    let mut memory = memory(1);
    memory[..bytes.len()].copy_from_slice(bytes);
    machine.step(&mut memory).unwrap()
}

#[test]
fn each_event_carries_its_data() {
    fn user(machine: &mut Machine) {
        machine.set_msr(0x4000).unwrap();
    }
    assert_eq!(event_of(&[0x00], |_| ()), Event::Completed);
    assert_eq!(
        event_of(&[0x00], |m| m.set_mmu(0x0800).unwrap()),
        Event::AccessViolation { descriptor: 16, address: 0 }
    );
    assert_eq!(event_of(&[0x3A, 0x34, 0x12], |_| ()), Event::NoMemory { physical: 0x1234 });
    assert_eq!(event_of(&[0x76], user), Event::Privileged { address: 0 });
    assert_eq!(event_of(&[0xED, 0x71, 0x34, 0x12], |_| ()), Event::SystemCall { operand: 0x1234, next: 4 });
    assert_eq!(event_of(&[0xED, 0x9F], |_| ()), Event::Extended { address: 0 });
    assert_eq!(event_of(&[0x76], |_| ()), Event::Halted);
    assert_eq!(event_of(&[0x76], |m| m.set_msr(0x1000).unwrap()), Event::BreakOnHalt { address: 0 });
    let ports = |m: &mut Machine| {
        m.set_iopage(0xAB);
        m.set_af(0xCD00);
    };
    assert_eq!(event_of(&[0xDB, 0x12], ports), Event::PortWanted { port: 0xABCD12, direction: Direction::In });
    assert_eq!(event_of(&[0xD3, 0x12], ports), Event::PortWanted { port: 0xABCD12, direction: Direction::Out });
    assert_eq!(event_of(&[0xDD, 0x00], |_| ()), Event::NoInstruction { address: 0 });
    assert_eq!(event_of(&[0xED, 0x9F], |m| m.set_tcr(2).unwrap()), Event::NoInstruction { address: 0 });
}

#[test]
fn only_four_events_are_delivered_and_fatal_is_told() {
    let deliver = |event: Event, ssp: u16| {
        let mut machine = Machine::reset(1).unwrap();
        machine.set_ssp(ssp);
        let mut memory = memory(1);
        let before = (machine.clone(), memory.clone());
        let result = machine.deliver(&mut memory, event);
        if result.is_err() {
            assert_eq!((machine, memory), before);
        }
        result
    };
    let address = 7;
    for event in [
        Event::AccessViolation { descriptor: 31, address },
        Event::Privileged { address },
        Event::SystemCall { operand: 1, next: 2 },
        Event::BreakOnHalt { address },
    ] {
        assert_eq!(deliver(event, 0x0800), Ok(()));
        assert_eq!(deliver(event, 0x1002), Err(Refusal::Fatal));
    }
    for event in [
        Event::Completed,
        Event::NoMemory { physical: 1 },
        Event::Extended { address },
        Event::Halted,
        Event::PortWanted { port: 1, direction: Direction::In },
        Event::NoInstruction { address },
    ] {
        assert_eq!(deliver(event, 0x0800), Err(Refusal::Undeliverable));
    }
}
