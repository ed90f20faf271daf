//! Stands in for zakuro's Thumb, which the text lacks; it also holds our way to the private state.

use crate::{Bus, Cpu, Exit};

// zakuro's lib.rs declares no module of ours, so this one hangs here.
pub mod packed;

/// Stops by the one exit that no ARM instruction gives.
pub fn execute<B: Bus>(_: &mut Cpu, _: &mut B, _: u32) -> Option<Exit> {
    Some(Exit::Halted)
}
