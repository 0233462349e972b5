//! Document 01's known steps.

mod common;

use common::World;
use second::{calls, deliver, form, make_valid, run, step, Event, Machine, Mode, Refusal, Space};

fn translated(control: u16, number: usize, descriptor: u16) -> Machine {
    let mut m = Machine { mmu_control: control, ..Machine::default() };
    m.descriptors[number] = descriptor;
    m
}

#[test]
fn p1_to_p3_translation() {
    let at = |m: &Machine| m.translate(Mode::User, Space::Data, 0x3ABC, false);
    assert_eq!(at(&translated(0x8000, 3, 0x00A8)), Ok(0xAABC));
    assert_eq!(at(&translated(0xC000, 1, 0x00A8)), Ok(0xBABC));
    assert_eq!(at(&translated(0xC000, 1, 0x00B8)), Ok(0xBABC));
}

/// F's six bits after one instruction, with the others clear.
fn after(code: &[u8], before: &str) -> World {
    let mut world = World::new(code, 0x100);
    world.set(before);
    assert_eq!(step(&mut world.m, &mut world.memory), Ok(Event::Completed));
    world
}

#[test]
fn p4_to_p6_compare_word() {
    let cpw = |before| after(&[0xED, 0xD7], before).m.f();
    assert_eq!(cpw("hl=7FFF de=FFFF"), 0x80 | 0x04 | 0x02 | 0x01);
    assert_eq!(cpw("hl=8000 de=0001"), 0x10 | 0x04 | 0x02);
    assert_eq!(cpw("hl=0010 de=0020"), 0x80 | 0x10 | 0x02 | 0x01);
}

#[test]
fn p7_to_p10_arithmetic() {
    let w = after(&[0xED, 0x4C], "hl=0121");
    assert_eq!((w.m.hl, w.m.f()), (0xFEDF, 0x80 | 0x10 | 0x02 | 0x01));
    let w = after(&[0xED, 0x4C], "hl=8000");
    assert_eq!((w.m.hl, w.m.f()), (0x8000, 0x80 | 0x04 | 0x02 | 0x01));
    let w = after(&[0xF6, 0x18], "a=48 f=11111111");
    assert_eq!(w.m.af, 0x5800 | 0x28);
    let w = after(&[0xED, 0xC0], "a=80 b=80");
    assert_eq!(w.m.hl, 0x4000);
}

#[test]
fn p11_push_over_two_withheld_pages() {
    let mut world = World::new(&[], 0);
    world.m = Machine { pc: 0x2000, user_sp: 0x1001, bc: 0x1234, msr: 0x4000, ..translated(0x8000, 2, 0x0028) };
    world.m.descriptors[1] = 0x0010;
    world.memory[0x2000] = 0xC5;
    for number in [0, 1] {
        let fault = Event::AccessViolation { descriptor: number, address: 0x2000 };
        assert_eq!(step(&mut world.m, &mut world.memory), Ok(fault));
        assert_eq!(world.m.mmu_control, 0x8000 | u16::from(number));
        assert_eq!(make_valid(&mut world.m, number), Ok(()));
    }
    assert_eq!(step(&mut world.m, &mut world.memory), Ok(Event::Completed));
    assert_eq!(world.m.user_sp, 0x0FFF);
    assert_eq!(world.memory[0x0FFF..0x1001], [0x34, 0x12]);
    assert_eq!(world.m.descriptors[..3], [0x0009, 0x0019, 0x0028]);
}

#[test]
fn system_call() {
    let mut world = World::new(&[0xED, 0x71, 0x34, 0x12], 0x100);
    world.set("sp=2000 msr=407F 0050:23 0051:00 0052:88 0053:90");
    let event = Event::SystemCall { operand: 0x1234, next: 0x104 };
    assert_eq!(step(&mut world.m, &mut world.memory), Ok(event));
    assert_eq!(deliver(&mut world.m, &mut world.memory, event), Ok(()));
    assert_eq!(world.m.system_sp, 0x1FFA);
    assert_eq!(world.memory[0x1FFA..0x2000], [0x34, 0x12, 0x7F, 0x40, 0x04, 0x01]);
    assert_eq!((world.m.msr, world.m.pc), (0x0023, 0x9088));
}

#[test]
fn frames_and_descriptor_numbers() {
    let mut world = World::new(&[0x7E], 0);
    world.m = Machine { msr: 0, hl: 0x1000, ..translated(0x0800, 16, 0x0008) };
    world.m.descriptors[17] = 0x00F8;
    assert_eq!(step(&mut world.m, &mut world.memory), Ok(Event::Completed));
    world.m.pc = 0;
    world.m.descriptors[17] = 0x0108;
    assert_eq!(step(&mut world.m, &mut world.memory), Ok(Event::NoMemory { physical: 0x10000 }));
    assert_eq!(make_valid(&mut world.m, 31), Ok(()));
    assert_eq!(make_valid(&mut world.m, 31), Err(Refusal::AlreadyValid));
    assert_eq!(make_valid(&mut world.m, 32), Err(Refusal::DescriptorNumber));
}

#[test]
fn forms() {
    let mut bytes = [0xAA; 103];
    let mut m = Machine { af: 0x1234, msr: 0x537F, tcr: 7, stack_limit: 0xFFF0, ..Machine::default() };
    m.descriptors[31] = 0xFFFF;
    assert_eq!(form::write(&m, 16, &mut bytes), Ok(()));
    assert_eq!(bytes[..4], [1, 0xF1, 0x23, 0x40]);
    assert_eq!(bytes[99..], [0xFF, 0x80, 0xAA, 0xAA]);
    assert_eq!(form::read(&bytes[..101]), Ok((m, 16)));
    assert_eq!(form::read(&bytes[..100]), Err(Refusal::Length));
    assert_eq!(form::read(&bytes[..102]), Err(Refusal::Length));
    assert_eq!(form::write(&m, 0, &mut []), Err(Refusal::Memory));
    assert_eq!(form::write(&m, 17, &mut bytes), Err(Refusal::Memory));
    assert_eq!(form::write(&m, 1, &mut bytes[..100]), Err(Refusal::Length));
    m.msr = 0x8000;
    assert_eq!(form::write(&m, 1, &mut []), Err(Refusal::Bits));
}

#[test]
fn the_program_s_input() {
    let mut bytes = [0; 101];
    bytes[0] = 1;
    let mut memory = vec![0; 4096];
    memory[1] = 0x76;
    let mut answer = [0xAA; 12];
    assert_eq!(calls::run(&mut bytes, &mut memory, 1000, &mut answer), 0);
    assert_eq!(answer, [6, 0, 1, 0, 0, 0, 0, 0, 0, 0, 0, 0]);
    assert_eq!(form::read(&bytes).unwrap().0.pc, 2);
}

#[test]
fn budgets_and_refused_memory() {
    let mut m = Machine::default();
    let mut memory = vec![0; 4096];
    assert_eq!(run(&mut m, &mut memory, 0), Ok((Event::Completed, 0)));
    assert_eq!(run(&mut m, &mut memory, 4096), Ok((Event::Completed, 4096)));
    assert_eq!(run(&mut m, &mut memory, 65535), Ok((Event::NoMemory { physical: 4096 }, 0)));
    assert_eq!(run(&mut m, &mut memory[1..], 1), Err(Refusal::Memory));
    assert_eq!(run(&mut m, &mut vec![0; 17 * 4096], 1), Err(Refusal::Memory));
    assert_eq!(run(&mut m, &mut [], 1), Err(Refusal::Memory));
}

#[test]
fn a_protected_destination_is_noticed_before_its_first_byte() {
    let mut world = World::new(&[0xC5], 0x2000);
    world.m.mmu_control = 0x0800;
    world.m.system_sp = 0x1001;
    world.m.bc = 0x1234;
    for (number, descriptor) in [(16, 0x0008), (17, 0x001C), (18, 0x0028)] {
        world.m.descriptors[number] = descriptor;
    }
    let before = world.clone();
    let fault = Event::AccessViolation { descriptor: 17, address: 0x2000 };
    assert_eq!(step(&mut world.m, &mut world.memory), Ok(fault));
    assert!(world.memory == before.memory);
    assert_eq!(world.m, Machine { mmu_control: 0x0811, ..before.m });
}
