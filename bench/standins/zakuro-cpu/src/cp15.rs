//! Stands in for zakuro's CP15, which the text lacks: it records that it was entered.

#[derive(Clone)]
pub struct Cp15 {
    pub thread_id_rw: u32,
    pub thread_id_ro: u32,
    pub thread_id_priv: u32,
    pub control: u32,
    /// Document 01 gives answer 4 where this is set.
    pub entered: bool,
}

impl Cp15 {
    pub fn new() -> Cp15 {
        Cp15 {
            thread_id_rw: 0,
            thread_id_ro: 0,
            thread_id_priv: 0,
            control: 0,
            entered: false,
        }
    }

    pub fn read(&mut self, _opc1: u32, _crn: u32, _crm: u32, _opc2: u32) -> u32 {
        self.entered = true;
        0
    }

    pub fn write(&mut self, _opc1: u32, _crn: u32, _crm: u32, _opc2: u32, _value: u32) {
        self.entered = true;
    }
}

impl Default for Cp15 {
    fn default() -> Cp15 {
        Cp15::new()
    }
}
