//! The tool's side of the wires: jobs, given sample by sample.

use crate::board::{Board, Levels, Sample};
use crate::jobfile::Job;
use crate::refusal::Refusal;

pub struct Master {
    board: Board,
    lines: Levels,
}

impl Master {
    pub fn new(board: Board) -> Self {
        Master { board, lines: Levels { wp: false, v2ro: false, v3ro: false } }
    }

    /// Runs a job and appends what it answers.
    pub fn run(&mut self, job: Job, answer: &mut Vec<u8>) -> Result<(), Refusal> {
        match job {
            Job::Write { address, bytes } => self.write(address, bytes),
            Job::Read { address, aim, count } => self.read(address, aim, count, answer),
            Job::Wait { address, polls } => self.wait(address, polls),
            Job::Finish { part } => self.board.finish(part),
            Job::Cut { mask } => {
                self.board.cut(mask);
                Ok(())
            }
            Job::Recover => {
                answer.push(self.recover());
                Ok(())
            }
            Job::Samples { bytes } => self.samples(bytes, answer),
        }
    }

    fn put(&mut self, scl: bool, sda: bool) -> bool {
        self.board.sample(Sample { scl, sda, levels: self.lines })
    }

    fn start(&mut self) {
        self.put(false, true);
        self.put(true, true);
        self.put(true, false);
        self.put(false, false);
    }

    fn stop(&mut self) {
        self.put(false, false);
        self.put(true, false);
        self.put(true, true);
    }

    fn send_bit(&mut self, bit: bool) {
        self.put(false, bit);
        self.put(true, bit);
        self.put(false, bit);
    }

    fn read_bit(&mut self) -> bool {
        self.put(false, true);
        let bit = self.put(true, true);
        self.put(false, true);
        bit
    }

    /// Answers whether the byte got an ACK.
    fn send_byte(&mut self, byte: u8) -> bool {
        for n in (0..8).rev() {
            self.send_bit(byte >> n & 1 == 1);
        }
        !self.read_bit()
    }

    fn receive_byte(&mut self, more: bool) -> u8 {
        let mut byte = 0;
        for _ in 0..8 {
            byte = byte << 1 | u8::from(self.read_bit());
        }
        self.send_bit(!more);
        byte
    }

    /// Sends bytes up to the first without an ACK; they are numbered from `first` on.
    fn send(&mut self, first: usize, bytes: impl IntoIterator<Item = u8>) -> Result<(), Refusal> {
        for (n, byte) in bytes.into_iter().enumerate() {
            if !self.send_byte(byte) {
                return Err(Refusal::NoAck(first + n));
            }
        }
        Ok(())
    }

    fn open(&mut self, address: u8, bytes: &[u8]) -> Result<(), Refusal> {
        self.start();
        self.send(0, [address << 1])?;
        self.send(1, bytes.iter().copied())
    }

    fn write(&mut self, address: u8, bytes: &[u8]) -> Result<(), Refusal> {
        let wp = self.lines.wp;
        self.lines.wp = false;
        let result = self.open(address, bytes);
        self.stop();
        self.lines.wp = wp;
        result
    }

    fn read(
        &mut self,
        address: u8,
        aim: &[u8],
        count: usize,
        answer: &mut Vec<u8>,
    ) -> Result<(), Refusal> {
        let result = self.open_read(address, aim);
        if result.is_ok() {
            for n in 1..=count {
                answer.push(self.receive_byte(n < count));
            }
        }
        self.stop();
        result
    }

    fn open_read(&mut self, address: u8, aim: &[u8]) -> Result<(), Refusal> {
        let mut sent = 0;
        if !aim.is_empty() {
            self.open(address, aim)?;
            sent = 1 + aim.len();
        }
        self.start();
        self.send(sent, [address << 1 | 1])
    }

    fn wait(&mut self, address: u8, polls: u32) -> Result<(), Refusal> {
        for _ in 0..polls {
            if self.write(address, &[]).is_ok() {
                return Ok(());
            }
        }
        Err(Refusal::NeverReady)
    }

    fn samples(&mut self, bytes: &[u8], answer: &mut Vec<u8>) -> Result<(), Refusal> {
        let samples: Vec<Sample> =
            bytes.iter().map(|&byte| Sample::try_from(byte)).collect::<Result<_, _>>()?;
        for sample in samples {
            answer.push(u8::from(self.board.sample(sample)));
        }
        Ok(())
    }

    /// Gives clocks until SDA reads HIGH, then a START and a STOP; answers the number of clocks.
    fn recover(&mut self) -> u8 {
        let mut clocks = 0;
        loop {
            clocks += 1;
            self.put(false, true);
            if self.put(true, true) {
                break;
            }
        }
        self.put(true, false);
        self.stop();
        clocks
    }
}
