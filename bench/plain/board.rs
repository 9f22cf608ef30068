//! Both chips on two wires, sample by sample.

use crate::ds1846::{self, Ds1846};
use crate::refusal::Refusal;
use crate::x9520::X9520;

#[derive(Clone, Copy)]
pub struct Levels {
    pub wp: bool,
    pub v2ro: bool,
    pub v3ro: bool,
}

#[derive(Clone, Copy)]
pub struct Sample {
    pub scl: bool,
    pub sda: bool,
    pub levels: Levels,
}

impl TryFrom<u8> for Sample {
    type Error = Refusal;

    fn try_from(byte: u8) -> Result<Sample, Refusal> {
        if byte >= 32 {
            return Err(Refusal::BadSample);
        }
        let levels = Levels { wp: byte & 4 != 0, v2ro: byte & 8 != 0, v3ro: byte & 16 != 0 };
        Ok(Sample { scl: byte & 1 != 0, sda: byte & 2 != 0, levels })
    }
}

/// What a byte from the master is in its transfer.
#[derive(Clone, Copy)]
enum Role {
    Address,
    First { address: u8 },
    Later { address: u8 },
}

#[derive(Clone, Copy)]
enum State {
    /// No transfer is open.
    Closed,
    /// No byte is taken or given until START.
    Deaf,
    /// The master sends a byte, of which so many rises have come; from the eighth on it is acknowledged.
    Taking { role: Role, rises: u8, byte: u8 },
    /// A chip gives a byte; after the ninth rise the master has acknowledged it.
    Giving { address: u8, rises: u8, byte: u8 },
}

pub struct Board {
    scl: bool,
    /// As it was on the wire.
    sda: bool,
    /// Whether a chip pulls SDA LOW.
    pull: bool,
    state: State,
    x9520: X9520,
    ds1846: Ds1846,
}

impl Board {
    pub fn new() -> Self {
        Board {
            scl: true,
            sda: true,
            pull: false,
            state: State::Closed,
            x9520: X9520::fresh(),
            ds1846: Ds1846::fresh(),
        }
    }

    /// Takes a sample and answers SDA on the wire.
    pub fn sample(&mut self, sample: Sample) -> bool {
        let Sample { scl, sda, levels } = sample;
        self.x9520.level(levels);
        self.ds1846.level(levels);
        if self.scl && !scl {
            self.fall();
        }
        let wire = sda && !self.pull;
        if scl {
            match (self.scl, self.sda, wire) {
                (false, _, bit) => self.rise(bit, levels),
                (true, true, false) => self.start(),
                (true, false, true) => self.stop(levels),
                _ => {}
            }
        }
        self.scl = scl;
        self.sda = wire;
        wire
    }

    fn start(&mut self) {
        self.x9520.start();
        self.ds1846.start();
        self.state = State::Taking { role: Role::Address, rises: 0, byte: 0 };
    }

    fn stop(&mut self, levels: Levels) {
        let clean = match self.state {
            State::Taking { role: Role::First { .. } | Role::Later { .. }, rises, .. } => rises == 1,
            State::Giving { rises, .. } => rises == 1,
            _ => false,
        };
        self.x9520.stop(clean, levels);
        self.ds1846.stop(clean, levels);
        self.state = State::Closed;
    }

    fn rise(&mut self, bit: bool, levels: Levels) {
        match &mut self.state {
            State::Taking { role, rises, byte } => {
                *rises += 1;
                if *rises <= 8 {
                    *byte = *byte << 1 | u8::from(bit);
                }
                if *rises == 8 {
                    let (role, byte) = (*role, *byte);
                    if !self.take(role, byte, levels) {
                        self.state = State::Deaf;
                    }
                }
            }
            State::Giving { rises, .. } => {
                *rises += 1;
                if *rises == 9 && bit {
                    self.state = State::Deaf;
                }
            }
            State::Closed | State::Deaf => {}
        }
    }

    fn fall(&mut self) {
        match self.state {
            State::Taking { rises: 8, .. } => self.pull = true,
            State::Taking { role, rises: 9, byte } => {
                self.pull = false;
                let role = match role {
                    Role::Address if byte & 1 == 1 => return self.fetch(byte),
                    Role::Address => Role::First { address: byte },
                    Role::First { address } | Role::Later { address } => Role::Later { address },
                };
                self.state = State::Taking { role, rises: 0, byte: 0 };
            }
            State::Giving { rises: 8, .. } => self.pull = false,
            State::Giving { address, rises: 9, .. } => self.fetch(address),
            State::Giving { rises, byte, .. } => self.pull = byte << rises & 0x80 == 0,
            _ => {}
        }
    }

    /// Hands a whole byte to the chip that it is for; answers whether it gets an ACK.
    fn take(&mut self, role: Role, byte: u8, levels: Levels) -> bool {
        match role {
            Role::Address if X9520::has(byte >> 1) => self.x9520.address(byte),
            Role::Address if byte >> 1 == ds1846::ADDRESS => self.ds1846.address(byte),
            Role::Address => false,
            Role::First { address } if X9520::has(address >> 1) => self.x9520.aim(byte),
            Role::First { .. } => self.ds1846.aim(byte),
            Role::Later { address } if X9520::has(address >> 1) => self.x9520.take(byte, levels),
            Role::Later { .. } => self.ds1846.take(byte, levels),
        }
    }

    fn fetch(&mut self, address: u8) {
        let byte = if X9520::has(address >> 1) { self.x9520.give() } else { self.ds1846.give() };
        self.pull = byte & 0x80 == 0;
        self.state = State::Giving { address, rises: 0, byte };
    }

    /// Ends the writes under way in a chip.
    pub fn finish(&mut self, part: u32) -> Result<(), Refusal> {
        match part {
            0 if self.x9520.busy() => self.x9520.finish(),
            1 if self.ds1846.busy() => self.ds1846.finish(),
            0 | 1 => return Err(Refusal::NothingUnderWay),
            _ => return Err(Refusal::NoSuchPart),
        }
        Ok(())
    }

    pub fn cut(&mut self, mask: u16) {
        self.x9520.cut(mask);
        self.ds1846.cut(mask);
        self.scl = true;
        self.sda = true;
        self.pull = false;
        self.state = State::Closed;
    }
}
