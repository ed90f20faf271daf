//! Opcodes by family: which one an opcode belongs to, and random ones of each.

use crate::rng::Rng;

/// What the counts are kept by.
#[derive(Clone, Copy, Debug, PartialEq, Eq)]
pub enum Family {
    DataImmediate,
    DataShifted,
    DataByRegister,
    MultiplyShort,
    MultiplyLong,
    MultiplyHalf,
    Saturating,
    Parallel,
    PackSelect,
    Saturate,
    Extend,
    Reverse,
    MultiplyDual,
    AbsoluteDifferences,
    StatusMove,
    Branch,
    BranchExchange,
    LeadingZeros,
    Breakpoint,
    Supervisor,
    Single,
    Extra,
    Block,
    Swap,
    Exclusive,
    Coprocessor,
    Unallocated,
    BranchLinkExchange,
    ClearExclusive,
    ChangeState,
    Nothing,
    Coprocessor2,
    Unallocated2,
}

/// In the order of `Family`.
pub const NAMES: [&str; 33] = [
    "data, immediate",
    "data, shift by immediate",
    "data, shift by register",
    "multiply, short",
    "multiply, long",
    "multiply, halfwords",
    "saturating sums",
    "media, parallel sums",
    "media, pack and select",
    "media, saturate",
    "media, extend",
    "media, reverse",
    "media, dual multiplies",
    "media, USAD8",
    "MRS, MSR",
    "B, BL",
    "BX, BLX",
    "CLZ",
    "BKPT",
    "SWI",
    "single transfer",
    "extra transfer",
    "block transfer",
    "swap",
    "exclusive",
    "coprocessor",
    "unallocated",
    "15: BLX immediate",
    "15: CLREX",
    "15: CPS, SETEND",
    "15: does nothing",
    "15: coprocessor",
    "15: unallocated",
];

/// The bits from `low` to `high`.
pub fn field(word: u32, high: u32, low: u32) -> u32 {
    word << (31 - high) >> (31 - high + low)
}

pub fn bit(word: u32, n: u32) -> bool {
    word >> n & 1 != 0
}

/// A register field by its lowest bit.
pub fn register(opcode: u32, low: u32) -> usize {
    field(opcode, low + 3, low) as usize
}

pub fn family(opcode: u32) -> Family {
    if opcode >> 28 == 15 {
        return unconditional(opcode);
    }
    match field(opcode, 27, 25) {
        0 => register_space(opcode),
        1 if !misc_hole(opcode) => Family::DataImmediate,
        1 if bit(opcode, 21) => Family::StatusMove,
        1 => Family::Unallocated,
        2 => Family::Single,
        3 if bit(opcode, 4) => media(opcode),
        3 => Family::Single,
        4 => Family::Block,
        5 => Family::Branch,
        7 if bit(opcode, 24) => Family::Supervisor,
        _ => Family::Coprocessor,
    }
}

/// A compare without S.
fn misc_hole(opcode: u32) -> bool {
    field(opcode, 24, 23) == 0b10 && !bit(opcode, 20)
}

fn register_space(opcode: u32) -> Family {
    if bit(opcode, 7) && bit(opcode, 4) {
        return beside_data(opcode);
    }
    if misc_hole(opcode) {
        return misc(opcode);
    }
    if bit(opcode, 4) {
        Family::DataByRegister
    } else {
        Family::DataShifted
    }
}

/// Bits 7 and 4 both set.
fn beside_data(opcode: u32) -> Family {
    if field(opcode, 6, 5) != 0 {
        return Family::Extra;
    }
    match field(opcode, 24, 21) {
        0b0000 | 0b0001 => Family::MultiplyShort,
        0b0011 => Family::Unallocated,
        0b0010..=0b0111 => Family::MultiplyLong,
        0b1000..=0b1011 => Family::Swap,
        _ => Family::Exclusive,
    }
}

fn misc(opcode: u32) -> Family {
    match field(opcode, 7, 4) {
        0b0000 => Family::StatusMove,
        0b0001 if field(opcode, 22, 21) == 0b11 => Family::LeadingZeros,
        0b0001 | 0b0011 => Family::BranchExchange,
        0b0101 => Family::Saturating,
        0b0111 => Family::Breakpoint,
        0b1000 | 0b1010 | 0b1100 | 0b1110 => Family::MultiplyHalf,
        _ => Family::Unallocated,
    }
}

fn media(opcode: u32) -> Family {
    let (op1, op2) = (field(opcode, 24, 20), field(opcode, 7, 5));
    match (op1, op2) {
        (0b00000 | 0b00100, _) => Family::Unallocated,
        (0b00001..=0b00111, 0..=4 | 7) => Family::Parallel,
        (0b01000, 0 | 2 | 4 | 6 | 5) => Family::PackSelect,
        (0b01001 | 0b01101, 3) => Family::Unallocated,
        (0b01000..=0b01111, 3) => Family::Extend,
        (0b01011 | 0b01111, 1 | 5) => Family::Reverse,
        (0b01010 | 0b01110, 1) => Family::Saturate,
        (0b01001..=0b01111, 0 | 2 | 4 | 6) => Family::Saturate,
        (0b10000 | 0b10100 | 0b10101, _) => Family::MultiplyDual,
        (0b11000, 0) => Family::AbsoluteDifferences,
        _ => Family::Unallocated,
    }
}

fn unconditional(opcode: u32) -> Family {
    if opcode & 0xFFF0_00F0 == 0xF570_0010 {
        return Family::ClearExclusive;
    }
    match field(opcode, 27, 25) {
        0 if field(opcode, 24, 20) == 0b10000 => Family::ChangeState,
        0 | 2 | 3 => Family::Nothing,
        5 => Family::BranchLinkExchange,
        6 | 7 => Family::Coprocessor2,
        _ => Family::Unallocated2,
    }
}

/// Opcodes that agree with `bits` wherever `fixed` is set.
struct Pattern {
    bits: u32,
    fixed: u32,
    weight: u32,
}

const fn p(bits: u32, fixed: u32, weight: u32) -> Pattern {
    Pattern {
        bits,
        fixed,
        weight,
    }
}

const PATTERNS: [Pattern; 62] = [
    p(0x0000_0000, 0x0000_0000, 8), // any opcode
    p(0x0200_0000, 0x0E00_0000, 6), // data, immediate
    p(0x0000_0000, 0x0E00_0010, 8), // data, shift by immediate
    p(0x0000_0000, 0x0E00_0FF0, 2), // data, plain register
    p(0x0000_0010, 0x0E00_0090, 6), // data, shift by register
    p(0x0010_F000, 0x0E10_F010, 2), // data with S into r15
    p(0x0210_F000, 0x0E10_F000, 1), // the same, immediate
    p(0x0010_F010, 0x0E10_F090, 1), // the same, shift by register
    p(0x0000_0090, 0x0FC0_00F0, 3), // MUL, MLA
    p(0x0080_0090, 0x0F80_00F0, 3), // UMULL to SMLAL
    p(0x0040_0090, 0x0FE0_00F0, 1), // UMAAL, and with bit 20
    p(0x0060_0090, 0x0FE0_00F0, 1), // MLS's place
    p(0x0100_0080, 0x0F90_0090, 4), // SMLAxy and kin
    p(0x0100_0050, 0x0F90_00F0, 3), // QADD and kin
    p(0x0600_0010, 0x0F80_0010, 6), // parallel sums
    p(0x0680_0010, 0x0F80_0010, 3), // pack to reverse, all
    p(0x0680_0010, 0x0FF0_0030, 2), // PKH
    p(0x0680_00B0, 0x0FF0_00F0, 2), // SEL
    p(0x06A0_0010, 0x0FA0_0030, 3), // SSAT, USAT
    p(0x0690_0010, 0x0FB0_0030, 1), // saturation with bits 24-20 of 01x01
    p(0x06C0_0010, 0x0FF0_0030, 1), // and of 01100
    p(0x06A0_0030, 0x0FB0_00F0, 2), // SSAT16, USAT16
    p(0x0680_0070, 0x0F80_00F0, 2), // extension with a sum
    p(0x068F_0070, 0x0F8F_00F0, 1), // extension alone
    p(0x06B0_0030, 0x0FB0_0070, 2), // REV and kin, RBIT
    p(0x0700_0010, 0x0F80_0010, 2), // dual multiplies, all
    p(0x0700_0010, 0x0FF0_0010, 2), // SMLAD, SMLSD
    p(0x0700_F010, 0x0FF0_F010, 1), // SMUAD, SMUSD
    p(0x0740_0010, 0x0FF0_0010, 1), // SMLALD, SMLSLD
    p(0x0750_0010, 0x0FF0_0010, 2), // SMMLA, SMMLS
    p(0x0780_0010, 0x0FF0_00F0, 2), // USADA8
    p(0x0780_0010, 0x0F80_0010, 1), // above it
    p(0x0100_0000, 0x0FB0_00F0, 2), // MRS
    p(0x0120_0000, 0x0FB0_00F0, 4), // MSR
    p(0x0320_0000, 0x0FB0_0000, 3), // MSR, immediate
    p(0x0300_0000, 0x0FB0_0000, 1), // its unallocated half
    p(0x0100_0010, 0x0F90_00D0, 3), // BX, BLX, CLZ
    p(0x0160_0010, 0x0FF0_00F0, 1), // CLZ
    p(0x0120_0020, 0x0FF0_00F0, 1), // BXJ
    p(0x0100_0000, 0x0F90_0090, 1), // the miscellaneous hole
    p(0x0100_0070, 0x0F90_00F0, 2), // BKPT
    p(0x0A00_0000, 0x0E00_0000, 3), // B, BL
    p(0x0F00_0000, 0x0F00_0000, 2), // SWI
    p(0x0400_0000, 0x0E00_0000, 5), // LDR, STR
    p(0x0600_0000, 0x0E00_0010, 5), // the same, register offset
    p(0x0000_00B0, 0x0E00_00F0, 3), // LDRH, STRH
    p(0x0000_00D0, 0x0E00_00F0, 4), // LDRSB, LDRD
    p(0x0000_00F0, 0x0E00_00F0, 4), // LDRSH, STRD
    p(0x0800_0000, 0x0E00_0000, 7), // LDM, STM
    p(0x0800_0000, 0x0E00_FFFF, 1), // with an empty list
    p(0x0850_8000, 0x0E50_8000, 2), // LDM with S and r15
    p(0x0100_0090, 0x0F80_00F0, 3), // SWP, and with bits 21-20
    p(0x0180_0090, 0x0F80_00F0, 6), // exclusives
    p(0x0C00_0000, 0x0E00_0000, 1), // coprocessor transfers
    p(0x0E00_0000, 0x0F00_0000, 2), // coprocessor data and registers
    p(0xFA00_0000, 0xFE00_0000, 1), // BLX immediate
    p(0xF570_0010, 0xFFF0_00F0, 1), // CLREX
    p(0xF100_0000, 0xFFF0_0000, 2), // CPS, SETEND
    p(0xF102_0000, 0xFFF2_0000, 2), // CPS with a mode
    p(0xF000_0000, 0xF800_0000, 2), // the rest of condition 15, low
    p(0xF800_0000, 0xFE00_0000, 1), // SRS, RFE
    p(0xFC00_0000, 0xFC00_0000, 1), // condition 15, coprocessor
];

const CONDITION: u32 = 0xF000_0000;
const ALWAYS: u32 = 14;
const REGISTER_FIELDS: [u32; 4] = [0, 8, 12, 16];

impl Pattern {
    fn fill(&self, free: u32) -> u32 {
        self.bits | free & !self.fixed
    }

    fn is_free(&self, mask: u32) -> bool {
        self.fixed & mask == 0
    }

    /// Any opcode has any condition; a pattern with one of its own keeps it.
    fn takes_condition(&self) -> bool {
        self.fixed != 0 && self.is_free(CONDITION)
    }

    fn with_condition(&self, opcode: u32, condition: u32) -> u32 {
        if self.takes_condition() {
            opcode & !CONDITION | condition << 28
        } else {
            opcode
        }
    }

    fn random(&self, rng: &mut Rng) -> u32 {
        let condition = if rng.chance(4) { rng.below(15) } else { ALWAYS };
        let opcode = self.with_condition(self.fill(rng.word()), condition);
        let field = 15 << rng.pick(&REGISTER_FIELDS);
        if rng.chance(8) && self.is_free(field) {
            opcode | field
        } else {
            opcode
        }
    }
}

const fn total_weight() -> u32 {
    let (mut i, mut sum) = (0, 0);
    while i < PATTERNS.len() {
        sum += PATTERNS[i].weight;
        i += 1;
    }
    sum
}

const WEIGHT: u32 = total_weight();

fn weighed(mut n: u32) -> &'static Pattern {
    for pattern in &PATTERNS {
        if n < pattern.weight {
            return pattern;
        }
        n -= pattern.weight;
    }
    unreachable!("n is below all weights")
}

/// Every family often, and any opcode.
pub fn random(rng: &mut Rng) -> u32 {
    weighed(rng.below(WEIGHT)).random(rng)
}

/// Each pattern filled `n` times, and each time with 15 in each free register field.
pub fn with_r15(rng: &mut Rng, n: u32) -> Vec<u32> {
    let mut opcodes = Vec::new();
    for pattern in &PATTERNS {
        for _ in 0..n {
            let opcode = pattern.with_condition(pattern.fill(rng.word()), ALWAYS);
            let fields = REGISTER_FIELDS.map(|low| 15 << low);
            let free = fields.into_iter().filter(|&mask| pattern.is_free(mask));
            opcodes.push(opcode);
            opcodes.extend(free.map(|mask| opcode | mask));
        }
    }
    opcodes
}

#[cfg(test)]
mod tests {
    use super::*;

    #[test]
    fn fields_are_read() {
        assert_eq!(field(0xE59F_1234, 31, 28), 0xE);
        assert_eq!(field(0xE59F_1234, 11, 0), 0x234);
        assert_eq!(field(0xE59F_1234, 31, 0), 0xE59F_1234);
        assert_eq!(register(0xE59F_1234, 12), 1);
    }

    #[test]
    fn families_are_told_apart() {
        use Family::*;
        let told = [
            (0xE3A0_0005, DataImmediate),
            (0xE081_0002, DataShifted),
            (0xE1A0_0211, DataByRegister),
            (0xE000_0291, MultiplyShort),
            (0xE040_0291, MultiplyLong),
            (0xE060_0291, Unallocated),
            (0xE100_0281, MultiplyHalf),
            (0xE100_0051, Saturating),
            (0xE610_0F10, Parallel),
            (0xE680_0FB0, PackSelect),
            (0xE6A0_0010, Saturate),
            (0xE6AF_0070, Extend),
            (0xE6BF_0F30, Reverse),
            (0xE700_F210, MultiplyDual),
            (0xE780_F210, AbsoluteDifferences),
            (0xE10F_0000, StatusMove),
            (0xE328_F000, StatusMove),
            (0xE300_0000, Unallocated),
            (0xEAFF_FFFE, Branch),
            (0xE12F_FF1E, BranchExchange),
            (0xE12F_FF2E, Unallocated),
            (0xE16F_0F11, LeadingZeros),
            (0xE120_0070, Breakpoint),
            (0xEF00_0007, Supervisor),
            (0xE591_0000, Single),
            (0xE791_0002, Single),
            (0xE1D1_00B0, Extra),
            (0xE8BD_8000, Block),
            (0xE101_0092, Swap),
            (0xE191_0F9F, Exclusive),
            (0xEE10_0F10, Coprocessor),
            (0xFA00_0000, BranchLinkExchange),
            (0xF57F_F01F, ClearExclusive),
            (0xF102_0013, ChangeState),
            (0xF5D1_F000, Nothing),
            (0xFE00_0000, Coprocessor2),
            (0xF8CD_0513, Unallocated2),
        ];
        for (opcode, wanted) in told {
            assert_eq!(family(opcode), wanted, "{opcode:08X}");
        }
    }

    #[test]
    fn every_family_is_met_often() {
        let mut rng = Rng::new(1);
        let mut met = [0; NAMES.len()];
        for _ in 0..100_000 {
            met[family(random(&mut rng)) as usize] += 1;
        }
        for (name, met) in NAMES.iter().zip(met) {
            assert!(met > 300, "{name}: {met}");
        }
    }

    #[test]
    fn patterns_keep_what_is_fixed() {
        let mut rng = Rng::new(2);
        for pattern in &PATTERNS {
            assert_eq!(pattern.bits & !pattern.fixed, 0);
            for _ in 0..100 {
                assert_eq!(pattern.random(&mut rng) & pattern.fixed, pattern.bits);
            }
        }
    }

    #[test]
    fn r15_stands_in_every_field() {
        let opcodes = with_r15(&mut Rng::new(3), 1);
        for low in REGISTER_FIELDS {
            let met = opcodes.iter().filter(|&&op| register(op, low) == 15);
            assert!(met.count() > PATTERNS.len() / 2);
        }
    }
}
