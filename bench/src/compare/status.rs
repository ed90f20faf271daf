//! Cases of packing and unpacking a status record.

use super::tally::{Phase, Row, Tally};
use super::{on_two_lines, Case, Checker};
use crate::minimise::below;
use crate::replies::{Packed, Unpacked};
use crate::rng::Rng;
use crate::state::GE_MAX;
use crate::{oracle, ours};
use std::fmt;

/// Document 01, section 2: packing answers 8, with the word 0.
const REFUSED: Packed = Packed { answer: 8, word: 0 };

const GE_BITS: u32 = 0x000F_0000;
/// The bits of a packed word that hold nothing.
const DROPPED: u32 = 0x07F0_FC00;

#[derive(Clone, Copy)]
pub struct Pack {
    word: u32,
    ge: u32,
}

impl fmt::Display for Pack {
    fn fmt(&self, f: &mut fmt::Formatter) -> fmt::Result {
        write!(f, "pack: fields of {:08X} ge {:X}", self.word, self.ge)
    }
}

impl Case for Pack {
    type Reply = Packed;

    fn count(&self, _: &Packed, phase: Phase, tally: &mut Tally) {
        let row = if self.ge > GE_MAX {
            Row::PackRefused
        } else {
            Row::Pack
        };
        tally.count(row, phase);
    }

    fn ours(&self) -> Packed {
        ours::pack(self.word, self.ge)
    }

    fn wanted(&self) -> Packed {
        oracle::pack(self.word, self.ge).unwrap_or(REFUSED)
    }

    fn contrast(&self, ours: &Packed, wanted: &Packed) -> String {
        on_two_lines(ours, wanted)
    }

    fn smaller(&self) -> Box<dyn Iterator<Item = Pack> + '_> {
        let ges = below(self.ge).into_iter();
        let words = below(self.word).into_iter();
        let smaller = ges.map(|ge| Pack { ge, ..*self });
        Box::new(smaller.chain(words.map(|word| Pack { word, ..*self })))
    }
}

#[derive(Clone, Copy)]
pub struct Unpack {
    word: u32,
}

impl fmt::Display for Unpack {
    fn fmt(&self, f: &mut fmt::Formatter) -> fmt::Result {
        write!(f, "unpack: {:08X}", self.word)
    }
}

impl Case for Unpack {
    type Reply = Unpacked;

    fn count(&self, _: &Unpacked, phase: Phase, tally: &mut Tally) {
        tally.count(Row::Unpack, phase);
    }

    fn ours(&self) -> Unpacked {
        ours::unpack(self.word)
    }

    fn wanted(&self) -> Unpacked {
        oracle::unpack(self.word)
    }

    fn contrast(&self, ours: &Unpacked, wanted: &Unpacked) -> String {
        on_two_lines(ours, wanted)
    }

    fn smaller(&self) -> Box<dyn Iterator<Item = Unpack> + '_> {
        let words = below(self.word).into_iter();
        Box::new(words.map(|word| Unpack { word }))
    }
}

/// Every pattern of N Z C V Q, E A I F T and mode, the other bits clear.
fn patterns() -> impl Iterator<Item = u32> {
    (0..1 << 15).map(|k| (k >> 10) << 27 | (k & 0x3FF))
}

/// Every single bit, and every word with one bit clear.
fn edge_words() -> impl Iterator<Item = u32> {
    let bits = (0..32).map(|k| 1 << k);
    bits.flat_map(|bit: u32| [bit, !bit]).chain([0, u32::MAX])
}

const LARGE_GES: [u32; 8] = [
    0x100,
    0x101,
    0x10F,
    0x1000F,
    0x8000_0000,
    0x8000_000F,
    0xFFFF_FFF0,
    0xFFFF_FFFF,
];

fn pack_with_every_ge(word: u32, checker: &mut Checker) -> Result<(), String> {
    for ge in (0..=0xFF).chain(LARGE_GES) {
        checker.check(&Pack { word, ge })?;
    }
    Ok(())
}

fn unpack_with_every_ge(word: u32, checker: &mut Checker) -> Result<(), String> {
    for ge in 0..=GE_MAX {
        let word = word & !GE_BITS | ge << 16;
        checker.check(&Unpack { word })?;
    }
    Ok(())
}

pub fn directed(checker: &mut Checker) -> Result<(), String> {
    let filled = patterns().flat_map(|word| [word, word | DROPPED | GE_BITS]);
    for word in filled.chain(edge_words()) {
        pack_with_every_ge(word, checker)?;
        unpack_with_every_ge(word, checker)?;
    }
    Ok(())
}

pub fn random_pack(rng: &mut Rng) -> Pack {
    let ge = match rng.below(4) {
        0 => rng.word(),
        1 => rng.below(0x100),
        _ => rng.below(GE_MAX + 1),
    };
    Pack {
        word: rng.word(),
        ge,
    }
}

pub fn random_unpack(rng: &mut Rng) -> Unpack {
    Unpack { word: rng.word() }
}
