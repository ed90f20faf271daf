//! Document 01's memory as the Rust's bus: L lent bytes, and what lies outside them.

use zakuro_cpu::Bus;

/// The memory during one step of one opcode.
pub struct Lent<'a> {
    memory: &'a mut [u8],
    opcode: u32,
    outside: Option<u32>,
    /// Where a byte was written, and what stood there.
    written: Vec<(usize, u8)>,
}

impl<'a> Lent<'a> {
    pub fn new(memory: &'a mut [u8], opcode: u32) -> Lent<'a> {
        Lent {
            memory,
            opcode,
            outside: None,
            written: Vec::new(),
        }
    }

    /// The address of the first access with a byte outside, in transfer order.
    pub fn outside(&self) -> Option<u32> {
        self.outside
    }

    pub fn memory(&self) -> &[u8] {
        self.memory
    }

    /// Puts back every byte that was written.
    pub fn undo(&mut self) {
        while let Some((at, byte)) = self.written.pop() {
            self.memory[at] = byte;
        }
    }

    fn inside(&mut self, addr: u32, size: usize) -> Option<usize> {
        let at = addr as usize;
        if at + size <= self.memory.len() {
            return Some(at);
        }
        self.outside.get_or_insert(addr);
        None
    }

    fn read<const SIZE: usize>(&mut self, addr: u32) -> [u8; SIZE] {
        let mut bytes = [0; SIZE];
        if let Some(at) = self.inside(addr, SIZE) {
            bytes.copy_from_slice(&self.memory[at..at + SIZE]);
        }
        bytes
    }

    fn write<const SIZE: usize>(&mut self, addr: u32, bytes: [u8; SIZE]) {
        let Some(at) = self.inside(addr, SIZE) else {
            return;
        };
        for (i, byte) in bytes.into_iter().enumerate() {
            self.written.push((at + i, self.memory[at + i]));
            self.memory[at + i] = byte;
        }
    }
}

impl Bus for Lent<'_> {
    fn read8(&mut self, addr: u32) -> u8 {
        u8::from_le_bytes(self.read(addr))
    }
    fn read16(&mut self, addr: u32) -> u16 {
        u16::from_le_bytes(self.read(addr))
    }
    fn read32(&mut self, addr: u32) -> u32 {
        u32::from_le_bytes(self.read(addr))
    }
    fn write8(&mut self, addr: u32, value: u8) {
        self.write(addr, value.to_le_bytes());
    }
    fn write16(&mut self, addr: u32, value: u16) {
        self.write(addr, value.to_le_bytes());
    }
    fn write32(&mut self, addr: u32, value: u32) {
        self.write(addr, value.to_le_bytes());
    }
    /// The step's own opcode, so that a given one can be fetched as well.
    fn fetch32(&mut self, _: u32) -> u32 {
        self.opcode
    }
}

#[cfg(test)]
mod tests {
    use super::*;

    #[test]
    fn bytes_lie_low_end_first_at_any_address() {
        let mut memory = [0, 1, 2, 3, 4, 5];
        let mut lent = Lent::new(&mut memory, 0);
        assert_eq!(lent.read32(1), 0x0403_0201);
        assert_eq!(lent.read16(3), 0x0403);
        lent.write16(1, 0xAABB);
        assert_eq!(lent.outside(), None);
        assert_eq!(memory, [0, 0xBB, 0xAA, 3, 4, 5]);
    }

    #[test]
    fn the_first_access_outside_is_kept() {
        let mut memory = [0; 8];
        let mut lent = Lent::new(&mut memory, 0);
        lent.read32(4);
        assert_eq!(lent.outside(), None);
        lent.write32(5, 0);
        lent.read8(0xFFFF_FFFF);
        assert_eq!(lent.outside(), Some(5));
    }

    #[test]
    fn a_word_at_the_top_does_not_wrap_inside() {
        let mut memory = [0; 8];
        let mut lent = Lent::new(&mut memory, 0);
        lent.read32(0xFFFF_FFFE);
        assert_eq!(lent.outside(), Some(0xFFFF_FFFE));
    }

    #[test]
    fn undoing_brings_every_byte_back() {
        let mut memory = [1, 2, 3, 4, 5, 6, 7, 8];
        let mut lent = Lent::new(&mut memory, 0);
        lent.write32(0, 0xFFFF_FFFF);
        lent.write16(2, 0);
        lent.write32(6, 0);
        lent.undo();
        assert_eq!(memory, [1, 2, 3, 4, 5, 6, 7, 8]);
    }
}
