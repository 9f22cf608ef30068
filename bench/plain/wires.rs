//! Reads a recording of two wires from standard input, of any length, and prints a line for each transfer that it shows.

use std::fmt;
use std::io::{self, BufWriter, Read, Write};

struct Transfer {
    first: usize,
    last: usize,
    address: u8,
    ninths: usize,
    clean: bool,
}

impl fmt::Display for Transfer {
    fn fmt(&self, f: &mut fmt::Formatter) -> fmt::Result {
        let Transfer { first, last, address, ninths, clean } = self;
        let clean = u8::from(*clean);
        write!(f, "{first} {last} {address} {ninths} {clean}")
    }
}

/// A transfer that has begun: its whole bytes, whether the last of them was acknowledged, and the bits since.
struct Open {
    first: usize,
    address: u8,
    ninths: usize,
    acked: bool,
    bits: u8,
    byte: u8,
}

impl Open {
    fn new(first: usize) -> Self {
        Open { first, address: 0, ninths: 0, acked: false, bits: 0, byte: 0 }
    }

    fn rise(&mut self, bit: bool) {
        if self.bits == 8 {
            self.ninths += 1;
            self.acked = !bit;
            self.bits = 0;
            return;
        }
        self.byte = self.byte << 1 | u8::from(bit);
        self.bits += 1;
        if self.bits == 8 && self.ninths == 0 {
            self.address = self.byte;
        }
    }

    fn is_clean(&self) -> bool {
        self.bits == 1 && self.acked
    }

    fn end(self, last: usize, clean: bool) -> Transfer {
        let Open { first, address, ninths, .. } = self;
        Transfer { first, last, address, ninths, clean }
    }
}

fn transfers(recording: &[u8]) -> Vec<Transfer> {
    let mut transfers = Vec::new();
    let mut open: Option<Open> = None;
    let (mut scl, mut sda) = (true, true);
    for (n, &sample) in recording.iter().enumerate() {
        let (now_scl, now_sda) = (sample & 1 != 0, sample & 2 != 0);
        match (scl, now_scl, sda, now_sda) {
            (false, true, _, bit) => {
                if let Some(open) = &mut open {
                    open.rise(bit);
                }
            }
            (true, true, true, false) => {
                transfers.extend(open.take().map(|open| open.end(n, false)));
                open = Some(Open::new(n));
            }
            (true, true, false, true) => {
                transfers.extend(open.take().map(|open| {
                    let clean = open.is_clean();
                    open.end(n, clean)
                }));
            }
            _ => {}
        }
        (scl, sda) = (now_scl, now_sda);
    }
    transfers.extend(open.map(|open| open.end(recording.len() - 1, false)));
    transfers
}

fn main() -> io::Result<()> {
    let mut recording = Vec::new();
    io::stdin().lock().read_to_end(&mut recording)?;
    let mut out = BufWriter::new(io::stdout().lock());
    if recording.iter().any(|&sample| sample >= 32) {
        writeln!(out, "no 1")?;
    } else {
        for transfer in transfers(&recording) {
            writeln!(out, "{transfer}")?;
        }
    }
    out.flush()
}
