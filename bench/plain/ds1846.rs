//! The DS1846 with its address pin A0 HIGH.

use crate::board::Levels;
use crate::eeprom::{Eeprom, next_in_page};

pub const ADDRESS: u8 = 0x51;

#[derive(Clone, Copy, PartialEq)]
enum Mode {
    Idle,
    Aiming,
    Writing,
    Reading,
}

pub struct Ds1846 {
    eeprom: Eeprom<256>,
    counter: u8,
    mode: Mode,
}

impl Ds1846 {
    pub fn fresh() -> Self {
        Ds1846 { eeprom: Eeprom::new([0; 256]), counter: 0, mode: Mode::Idle }
    }

    pub fn busy(&self) -> bool {
        self.eeprom.busy()
    }

    /// The chip looks at the levels only with a byte and at a STOP.
    pub fn level(&mut self, _levels: Levels) {}

    pub fn start(&mut self) {
        self.leave();
    }

    pub fn address(&mut self, byte: u8) -> bool {
        self.leave();
        if self.eeprom.busy() {
            return false;
        }
        self.mode = if byte & 1 == 1 { Mode::Reading } else { Mode::Aiming };
        true
    }

    pub fn aim(&mut self, byte: u8) -> bool {
        if self.mode != Mode::Aiming {
            return self.refuse();
        }
        self.counter = byte;
        self.mode = Mode::Writing;
        true
    }

    pub fn take(&mut self, byte: u8, levels: Levels) -> bool {
        if self.mode != Mode::Writing || levels.wp {
            return self.refuse();
        }
        self.eeprom.stage(usize::from(self.counter), byte);
        self.counter = next_in_page(self.counter, 8);
        true
    }

    pub fn give(&mut self) -> u8 {
        if self.mode != Mode::Reading {
            return 0xff;
        }
        let byte = self.eeprom.byte(usize::from(self.counter));
        self.counter = self.counter.wrapping_add(1);
        byte
    }

    pub fn stop(&mut self, clean: bool, levels: Levels) {
        self.eeprom.stop(clean && !levels.wp);
        self.mode = Mode::Idle;
    }

    pub fn finish(&mut self) {
        self.eeprom.finish();
    }

    pub fn cut(&mut self, mask: u16) {
        self.eeprom.cut(mask);
        self.counter = 0;
        self.mode = Mode::Idle;
    }

    fn leave(&mut self) {
        self.eeprom.unstage();
        self.mode = Mode::Idle;
    }

    fn refuse(&mut self) -> bool {
        self.leave();
        false
    }
}
