//! Writes the inputs of the benchmark to standard output: `inputs jobs CELL WAITS POLLS` or `inputs wires SAMPLES`.

use std::io::{self, BufWriter, Write};

/// A write to a cell of the DS1846, which leaves it busy, and then waits of so many polls, each in four bytes.
fn job_file(cell: u8, waits: usize, polls: u16) -> Vec<u8> {
    let mut file = vec![0x01, 0x51, 0x02, cell, 0xab];
    for _ in 0..waits {
        file.extend([0x03, 0x51, 0x80 | (polls >> 7) as u8, (polls & 0x7f) as u8]);
    }
    file
}

/// Numbers by a fixed rule.
struct Numbers(u64);

impl Numbers {
    fn below(&mut self, limit: u64) -> u64 {
        self.0 = self.0.wrapping_mul(6_364_136_223_846_793_005).wrapping_add(1_442_695_040_888_963_407);
        (self.0 >> 33) % limit
    }

    fn once_in(&mut self, times: u64) -> bool {
        self.below(times) == 0
    }
}

struct Recording {
    samples: Vec<u8>,
    /// Bits 2 to 4 of each sample.
    lines: u8,
}

impl Recording {
    fn put(&mut self, scl: u8, sda: u8) {
        self.samples.push(self.lines | sda << 1 | scl);
    }

    fn bit(&mut self, bit: u8) {
        self.put(0, bit);
        self.put(1, bit);
        self.put(0, bit);
    }

    fn byte(&mut self, byte: u8, ninth: u8) {
        for n in (0..8).rev() {
            self.bit(byte >> n & 1);
        }
        self.bit(ninth);
    }

    fn start(&mut self) {
        self.put(0, 1);
        self.put(1, 1);
        self.put(1, 0);
        self.put(0, 0);
    }

    fn stop(&mut self) {
        self.put(0, 0);
        self.put(1, 0);
        self.put(1, 1);
    }
}

/// Transfers one after another: an address byte and up to seven more, acknowledged but for one in 16 and the last byte of
/// a read. One transfer in four ends with the START of the next, and one in 16 breaks off inside a byte.
fn recording(samples: usize) -> Vec<u8> {
    let mut numbers = Numbers(1);
    let mut recording = Recording { samples: Vec::with_capacity(samples + 300), lines: 0 };
    while recording.samples.len() < samples {
        recording.lines = (numbers.below(8) as u8) << 2;
        recording.start();
        let address = numbers.below(256) as u8;
        let more = numbers.below(8);
        for n in 0..=more {
            let byte = if n == 0 { address } else { numbers.below(256) as u8 };
            let last_read = n > 0 && n == more && address & 1 == 1;
            let ninth = last_read || numbers.once_in(16);
            recording.byte(byte, u8::from(ninth));
        }
        if numbers.once_in(16) {
            for _ in 0..=numbers.below(7) {
                recording.bit(numbers.below(2) as u8);
            }
        }
        if !numbers.once_in(4) {
            recording.stop();
        }
    }
    recording.samples.truncate(samples);
    recording.samples
}

fn main() -> io::Result<()> {
    let arguments: Vec<String> = std::env::args().skip(1).collect();
    let numbers: Vec<usize> = arguments.iter().skip(1).flat_map(|text| text.parse()).collect();
    let input = match (arguments.first().map(String::as_str), &numbers[..]) {
        (Some("jobs"), &[cell, waits, polls]) => job_file(cell as u8, waits, polls as u16),
        (Some("wires"), &[samples]) => recording(samples),
        _ => return Err(io::Error::other("say `jobs CELL WAITS POLLS` or `wires SAMPLES`")),
    };
    let mut out = BufWriter::new(io::stdout().lock());
    out.write_all(&input)?;
    out.flush()
}
