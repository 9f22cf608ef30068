//! The decoder of job files.

use crate::refusal::Refusal;

pub enum Job<'a> {
    Write { address: u8, bytes: &'a [u8] },
    Read { address: u8, aim: &'a [u8], count: usize },
    Wait { address: u8, polls: u32 },
    Finish { part: u32 },
    Cut { mask: u16 },
    Recover,
    Samples { bytes: &'a [u8] },
}

/// The jobs of a file with their offsets. One that cannot be decoded is the last.
pub struct Jobs<'a> {
    file: &'a [u8],
    at: usize,
}

impl<'a> Jobs<'a> {
    pub fn new(file: &'a [u8]) -> Self {
        Jobs { file, at: 0 }
    }

    fn byte(&mut self) -> Result<u8, Refusal> {
        let byte = *self.file.get(self.at).ok_or(Refusal::FileEnds)?;
        self.at += 1;
        Ok(byte)
    }

    /// One to three groups of seven bits, the highest first.
    fn number(&mut self) -> Result<u32, Refusal> {
        let mut value = 0;
        for _ in 0..3 {
            let byte = self.byte()?;
            value = value << 7 | u32::from(byte & 0x7f);
            if byte & 0x80 == 0 {
                return Ok(value);
            }
        }
        Err(Refusal::OutOfLimit)
    }

    fn within(&mut self, least: u32, most: u32) -> Result<u32, Refusal> {
        let value = self.number()?;
        if (least..=most).contains(&value) { Ok(value) } else { Err(Refusal::OutOfLimit) }
    }

    fn address(&mut self) -> Result<u8, Refusal> {
        Ok(self.within(0, 127)? as u8)
    }

    fn bytes(&mut self, most: u32) -> Result<&'a [u8], Refusal> {
        let count = self.within(0, most)? as usize;
        let bytes = self.file[self.at..].get(..count).ok_or(Refusal::FileEnds)?;
        self.at += count;
        Ok(bytes)
    }

    fn job(&mut self) -> Result<Job<'a>, Refusal> {
        Ok(match self.byte()? {
            1 => Job::Write { address: self.address()?, bytes: self.bytes(255)? },
            2 => Job::Read {
                address: self.address()?,
                aim: self.bytes(2)?,
                count: self.within(1, 255)? as usize,
            },
            3 => Job::Wait { address: self.address()?, polls: self.within(1, 1000)? },
            4 => Job::Finish { part: self.number()? },
            5 => Job::Cut { mask: self.within(0, 65535)? as u16 },
            6 => Job::Recover,
            7 => Job::Samples { bytes: self.bytes(255)? },
            _ => return Err(Refusal::UnknownKind),
        })
    }
}

impl<'a> Iterator for Jobs<'a> {
    type Item = (usize, Result<Job<'a>, Refusal>);

    fn next(&mut self) -> Option<Self::Item> {
        let at = self.at;
        if at >= self.file.len() {
            return None;
        }
        let job = self.job();
        if job.is_err() {
            self.at = self.file.len();
        }
        Some((at, job))
    }
}
