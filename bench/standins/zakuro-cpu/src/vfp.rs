//! Stands in for zakuro's VFP, which the text lacks: it records that it was entered.

use crate::{Bus, Cpu, Exit};

#[derive(Clone)]
pub struct Vfp {
    pub regs: [u32; 32],
    pub fpscr: u32,
    pub fpexc: u32,
    /// Document 01 gives answer 4 where this is set.
    pub entered: bool,
}

impl Vfp {
    pub fn new() -> Vfp {
        Vfp {
            regs: [0; 32],
            fpscr: 0,
            fpexc: 0,
            entered: false,
        }
    }
}

impl Default for Vfp {
    fn default() -> Vfp {
        Vfp::new()
    }
}

fn enter(cpu: &mut Cpu) -> Option<Exit> {
    cpu.vfp.entered = true;
    None
}

pub fn coprocessor_load_store<B: Bus>(cpu: &mut Cpu, _: &mut B, _: u32) -> Option<Exit> {
    enter(cpu)
}

pub fn data_processing(cpu: &mut Cpu, _: u32) -> Option<Exit> {
    enter(cpu)
}

pub fn coprocessor_register(cpu: &mut Cpu, _: u32) -> Option<Exit> {
    enter(cpu)
}
