//! The proved calls, as the linked archive gives them.

pub mod steps;

use crate::replies::{Packed, Shifted, Unpacked};

// The declarations are those of the crate for hosts: the bench tries them too.
#[cfg_attr(not(steps), allow(dead_code))]
#[path = "../../../embed/rust/src/raw.rs"]
mod raw;

fn low(reply: u64) -> u32 {
    reply as u32
}

fn high(reply: u64) -> u32 {
    (reply >> 32) as u32
}

fn shifted(reply: u64) -> Shifted {
    Shifted {
        value: low(reply),
        carry: high(reply),
    }
}

pub fn pack(word: u32, ge: u32) -> Packed {
    let reply = raw::pack(word, ge);
    Packed {
        answer: high(reply),
        word: low(reply),
    }
}

pub fn unpack(word: u32) -> Unpacked {
    let reply = raw::unpack(word);
    Unpacked {
        word: low(reply),
        ge: high(reply),
    }
}

pub fn shift_immediate(kind: u32, value: u32, amount: u32, carry: bool) -> Shifted {
    shifted(raw::shift_immediate(kind, value, amount, carry))
}

pub fn shift_register(kind: u32, value: u32, amount: u32, carry: bool) -> Shifted {
    shifted(raw::shift_register(kind, value, amount, carry))
}
