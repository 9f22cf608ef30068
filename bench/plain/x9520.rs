//! The X9520: memory, three digital potentiometers (DCPs), and a register with latches and lock.

use crate::board::Levels;
use crate::eeprom::{Eeprom, next_in_page};

/// Cells 0 to 255 are the memory, from here on the stored wipers, and last the register.
const WIPERS: usize = 256;
const REGISTER: usize = 259;
const CELLS: usize = 260;

#[derive(Clone, Copy, PartialEq)]
enum Device {
    Memory,
    Register,
    Dcps,
}

impl Device {
    fn at(address: u8) -> Option<Device> {
        match address {
            0x50 => Some(Device::Memory),
            0x52 => Some(Device::Register),
            0x57 => Some(Device::Dcps),
            _ => None,
        }
    }
}

#[derive(Clone, Copy)]
enum Mode {
    Idle,
    /// The first byte after a write address.
    Aiming(Device),
    MemoryBytes,
    DcpByte { store: bool },
    RegisterByte,
    /// The STOP: the wiper has moved.
    Moved,
    /// The STOP, at which this register byte changes the latches, or begins to be stored.
    Latching(u8),
    Storing(u8),
    Reading(Device),
}

pub struct X9520 {
    eeprom: Eeprom<CELLS>,
    /// The byte of the tap at which each wiper stands.
    wipers: [u8; 3],
    wel: bool,
    rwel: bool,
    v2os: bool,
    v3os: bool,
    counter: u8,
    named: usize,
    mode: Mode,
}

/// The byte of the tap that a byte stands for.
fn wiper_register(dcp: usize, byte: u8) -> u8 {
    match dcp {
        0 => byte.min(63),
        1 => match byte {
            0..=24 | 32..=56 | 64..=88 | 96..=120 => byte,
            _ => 96,
        },
        _ => byte,
    }
}

impl X9520 {
    pub fn has(address: u8) -> bool {
        Device::at(address).is_some()
    }

    pub fn fresh() -> Self {
        let mut bytes = [0; CELLS];
        bytes[REGISTER] = 0x01;
        let mut chip = X9520 {
            eeprom: Eeprom::new(bytes),
            wipers: [0; 3],
            wel: false,
            rwel: false,
            v2os: false,
            v3os: false,
            counter: 0,
            named: 0,
            mode: Mode::Idle,
        };
        chip.power_up();
        chip
    }

    fn power_up(&mut self) {
        for (dcp, wiper) in self.wipers.iter_mut().enumerate() {
            *wiper = wiper_register(dcp, self.eeprom.byte(WIPERS + dcp));
        }
        self.wel = false;
        self.rwel = false;
        self.v2os = false;
        self.v3os = false;
        self.counter = 0;
        self.named = 0;
        self.mode = Mode::Idle;
    }

    pub fn busy(&self) -> bool {
        self.eeprom.busy()
    }

    pub fn level(&mut self, levels: Levels) {
        self.v2os &= levels.v2ro;
        self.v3os &= levels.v3ro;
    }

    pub fn start(&mut self) {
        self.leave();
    }

    pub fn address(&mut self, byte: u8) -> bool {
        self.leave();
        if self.eeprom.busy() {
            return false;
        }
        let Some(device) = Device::at(byte >> 1) else {
            return false;
        };
        self.mode = if byte & 1 == 1 { Mode::Reading(device) } else { Mode::Aiming(device) };
        true
    }

    pub fn aim(&mut self, byte: u8) -> bool {
        match self.mode {
            Mode::Aiming(Device::Memory) => {
                self.counter = byte;
                self.mode = Mode::MemoryBytes;
                true
            }
            Mode::Aiming(Device::Register) if byte == 0xff => {
                self.mode = Mode::RegisterByte;
                true
            }
            Mode::Aiming(Device::Dcps) if byte & 0x7f < 3 => {
                self.named = usize::from(byte & 0x7f);
                self.mode = Mode::DcpByte { store: byte & 0x80 != 0 };
                true
            }
            _ => self.refuse(),
        }
    }

    pub fn take(&mut self, byte: u8, levels: Levels) -> bool {
        match self.mode {
            Mode::MemoryBytes => self.take_memory(byte, levels.wp),
            Mode::DcpByte { store } => self.take_dcp(byte, store, levels.wp),
            Mode::RegisterByte => self.take_register(byte, levels.wp),
            _ => self.refuse(),
        }
    }

    fn take_memory(&mut self, byte: u8, wp: bool) -> bool {
        if !self.wel || wp {
            return self.refuse();
        }
        let locked = match self.lock() {
            0 => false,
            1 => self.counter >= 0xc0,
            2 => self.counter >= 0x80,
            _ => true,
        };
        if locked {
            self.rwel = false;
            return self.refuse();
        }
        self.eeprom.stage(usize::from(self.counter), byte);
        self.counter = next_in_page(self.counter, 16);
        true
    }

    fn take_dcp(&mut self, byte: u8, store: bool, wp: bool) -> bool {
        if !self.wel || (wp && store) || self.lock() != 0 {
            return self.refuse();
        }
        self.wipers[self.named] = wiper_register(self.named, byte);
        if store {
            self.eeprom.stage(WIPERS + self.named, byte);
        }
        self.mode = Mode::Moved;
        true
    }

    fn take_register(&mut self, byte: u8, wp: bool) -> bool {
        if wp && self.lock() != 0 {
            return self.refuse();
        }
        let bit_1 = byte & 2 != 0;
        let bit_2 = byte & 4 != 0;
        let latches = match byte {
            0x00 => true,
            _ if self.rwel => bit_1 && bit_2,
            0x02 => true,
            0x06 => self.wel,
            _ => false,
        };
        if latches {
            self.mode = Mode::Latching(byte);
            true
        } else if self.rwel && bit_1 && !wp {
            self.eeprom.stage(REGISTER, byte);
            self.mode = Mode::Storing(byte);
            true
        } else {
            self.refuse()
        }
    }

    pub fn give(&mut self) -> u8 {
        match self.mode {
            Mode::Reading(Device::Memory) => {
                let byte = self.eeprom.byte(usize::from(self.counter));
                self.counter = self.counter.wrapping_add(1);
                byte
            }
            Mode::Reading(Device::Register) => {
                self.eeprom.byte(REGISTER) & 0b1001_1001
                    | u8::from(self.v2os) << 6
                    | u8::from(self.v3os) << 5
                    | u8::from(self.rwel) << 2
                    | u8::from(self.wel) << 1
            }
            Mode::Reading(Device::Dcps) => self.wipers[self.named],
            _ => 0xff,
        }
    }

    pub fn stop(&mut self, clean: bool, levels: Levels) {
        let begins = clean && !levels.wp;
        match self.mode {
            Mode::Latching(byte) if clean && (!levels.wp || self.lock() == 0) => match byte {
                0x00 => {
                    self.wel = false;
                    self.rwel = false;
                }
                0x02 => self.wel = true,
                0x06 => self.rwel = self.wel,
                _ => {}
            },
            Mode::Storing(byte) if begins => {
                self.rwel = false;
                self.v2os = byte & 0x40 != 0 && levels.v2ro;
                self.v3os = byte & 0x20 != 0 && levels.v3ro;
            }
            _ => {}
        }
        self.eeprom.stop(begins);
        self.mode = Mode::Idle;
    }

    pub fn finish(&mut self) {
        self.eeprom.finish();
    }

    pub fn cut(&mut self, mask: u16) {
        self.eeprom.cut(mask);
        self.power_up();
    }

    /// BL1 and BL0 of the stored register byte.
    fn lock(&self) -> u8 {
        self.eeprom.byte(REGISTER) >> 3 & 3
    }

    fn leave(&mut self) {
        self.eeprom.unstage();
        self.mode = Mode::Idle;
    }

    fn refuse(&mut self) -> bool {
        self.leave();
        false
    }
}
