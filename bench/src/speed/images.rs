//! The images that are timed: words from address 0 on, each an endless loop.

pub struct Image {
    pub name: &'static str,
    words: &'static [u32],
}

pub const IMAGES: [Image; 4] = [
    Image {
        name: "ALU loop",
        words: &ALU,
    },
    Image {
        name: "transfers and calls",
        words: &TRANSFERS,
    },
    Image {
        name: "multiplies and media",
        words: &PRODUCTS,
    },
    Image {
        name: "duplicates, 128 bits",
        words: &DUPLICATES,
    },
];

/// No image touches an address beyond this.
pub const SHORTEST: usize = 0x4000;

/// Data repeat after so many numbers of 16 bytes, so that there are duplicates.
const PERIOD: usize = 48;

/// 16-byte numbers, all different within a period.
fn data(at: usize) -> u8 {
    let at = at % (16 * PERIOD);
    (at * 167 + at / 16 * 59) as u8
}

impl Image {
    /// The image with data behind it, in memory of a length.
    pub fn memory(&self, length: usize) -> Vec<u8> {
        let mut memory: Vec<u8> = (0..length).map(data).collect();
        for (place, word) in memory.chunks_exact_mut(4).zip(self.words) {
            place.copy_from_slice(&word.to_le_bytes());
        }
        memory
    }
}

/// Sums, logic, shifts and conditions.
const ALU: [u32; 23] = [
    0xE3A0_0000, // mov r0, #0
    0xE3A0_1001, // mov r1, #1
    0xE3E0_2000, // mvn r2, #0
    0xE3A0_3055, // mov r3, #0x55
    0xE080_0001, // loop: add r0, r0, r1
    0xE090_4002, // adds r4, r0, r2
    0xE0A4_5003, // adc r5, r4, r3
    0xE045_6181, // sub r6, r5, r1, lsl #3
    0xE056_7000, // subs r7, r6, r0
    0xE0C7_8002, // sbc r8, r7, r2
    0xE023_33E8, // eor r3, r3, r8, ror #7
    0xE003_9005, // and r9, r3, r5
    0xE189_A2A6, // orr r10, r9, r6, lsr #5
    0xE3CA_B0FF, // bic r11, r10, #0xff
    0xE1E0_C00B, // mvn r12, r11
    0xE062_214C, // rsb r2, r2, r12, asr #2
    0xE1A0_1FE1, // mov r1, r1, ror #31
    0xE310_0004, // tst r0, #4
    0x1285_5001, // addne r5, r5, #1
    0x01A0_6117, // moveq r6, r7, lsl r1
    0xE150_000C, // cmp r0, r12
    0x81A0_8009, // movhi r8, r9
    0xEAFF_FFEC, // b loop
];

/// Loads, stores, blocks, a call with a stack.
const TRANSFERS: [u32; 24] = [
    0xE3A0_0000, // mov r0, #0
    0xE3A0_8A01, // mov r8, #0x1000
    0xE3A0_9A02, // mov r9, #0x2000
    0xE3A0_D901, // mov sp, #0x4000
    0xE200_AEFF, // loop: and r10, r0, #0xff0
    0xE088_B00A, // add r11, r8, r10
    0xE59B_1000, // ldr r1, [r11]
    0xE789_100A, // str r1, [r9, r10]
    0xE5DB_2005, // ldrb r2, [r11, #5]
    0xE5C9_2007, // strb r2, [r9, #7]
    0xE1DB_30B2, // ldrh r3, [r11, #2]
    0xE1C9_30BC, // strh r3, [r9, #12]
    0xE1DB_40D1, // ldrsb r4, [r11, #1]
    0xE89B_007E, // ldmia r11, {r1-r6}
    0xE889_007E, // stmia r9, {r1-r6}
    0xEB00_0001, // bl sub
    0xE280_0010, // add r0, r0, #16
    0xEAFF_FFF1, // b loop
    0xE92D_40F0, // sub: push {r4-r7, lr}
    0xE59D_4010, // ldr r4, [sp, #16]
    0xE084_7000, // add r7, r4, r0
    0xE788_700A, // str r7, [r8, r10]
    0xE8BD_40F0, // pop {r4-r7, lr}
    0xE12F_FF1E, // bx lr
];

/// Multiplies and media operations.
const PRODUCTS: [u32; 25] = [
    0xE3A0_1003, // mov r1, #3
    0xE3E0_2005, // mvn r2, #5
    0xE3A0_3007, // mov r3, #7
    0xE004_0291, // loop: mul r4, r1, r2
    0xE025_3194, // mla r5, r4, r1, r3
    0xE087_6594, // umull r6, r7, r4, r5
    0xE0E7_6592, // smlal r6, r7, r2, r5
    0xE049_8496, // umaal r8, r9, r6, r4
    0xE10A_A7C6, // smlabt r10, r6, r7, r10
    0xE12C_05AA, // smulwb r12, r10, r5
    0xE104_B05A, // qadd r11, r10, r4
    0xE16F_CF1B, // clz r12, r11
    0xE6EF_0075, // uxtb r0, r5
    0xE6B1_1076, // sxtah r1, r1, r6
    0xE6BF_2F37, // rev r2, r7
    0xE654_3F95, // uadd8 r3, r4, r5
    0xE683_3FB6, // sel r3, r3, r6
    0xE784_F513, // usad8 r4, r3, r5
    0xE6AB_51D6, // ssat r5, #12, r6, asr #3
    0xE685_6217, // pkhbt r6, r5, r7, lsl #4
    0xE707_5413, // smlad r7, r3, r4, r5
    0xE758_F716, // smmul r8, r6, r7
    0xE668_9F17, // uqadd16 r9, r8, r7
    0xE081_1000, // add r1, r1, r0
    0xEAFF_FFE9, // b loop
];

/// Counts equal pairs among 64 numbers of 128 bits, by SUBS and SBCS.
const DUPLICATES: [u32; 23] = [
    0xE3A0_9A01, // mov r9, #0x1000
    0xE289_AB01, // add r10, r9, #0x400
    0xE1A0_B009, // again: mov r11, r9
    0xE3A0_C000, // mov r12, #0
    0xE28B_8010, // outer: add r8, r11, #16
    0xE158_000A, // inner: cmp r8, r10
    0x2A00_000A, // bhs next
    0xE89B_000F, // ldmia r11, {r0-r3}
    0xE8B8_00F0, // ldmia r8!, {r4-r7}
    0xE050_0004, // subs r0, r0, r4
    0xE0D1_1005, // sbcs r1, r1, r5
    0xE0D2_2006, // sbcs r2, r2, r6
    0xE0D3_3007, // sbcs r3, r3, r7
    0xE180_0001, // orr r0, r0, r1
    0xE182_2003, // orr r2, r2, r3
    0xE190_0002, // orrs r0, r0, r2
    0x028C_C001, // addeq r12, r12, #1
    0xEAFF_FFF2, // b inner
    0xE28B_B010, // next: add r11, r11, #16
    0xE15B_000A, // cmp r11, r10
    0x3AFF_FFEE, // blo outer
    0xE58A_C000, // str r12, [r10]
    0xEAFF_FFEA, // b again
];

#[cfg(test)]
mod tests {
    use super::*;
    use crate::expected;
    use crate::state::plain;

    #[test]
    fn images_loop_in_the_shortest_memory() {
        for image in IMAGES {
            let mut memory = image.memory(SHORTEST);
            let (answer, count) = expected::run(&mut plain(0), &mut memory, 50_000);
            assert_eq!((answer.number, count), (10, 50_000), "{}", image.name);
        }
    }

    /// 64 numbers that repeat after 48: the first 16 stand twice.
    #[test]
    fn duplicates_are_counted() {
        let mut memory = IMAGES[3].memory(SHORTEST);
        expected::run(&mut plain(0), &mut memory, 50_000);
        assert_eq!(memory[0x1400..0x1404], [16, 0, 0, 0]);
    }
}
