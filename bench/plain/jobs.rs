//! Runs a job file from standard input on a board with a fresh X9520 and a fresh DS1846, and prints a line for each job.

mod board;
mod ds1846;
mod eeprom;
mod jobfile;
mod master;
mod refusal;
mod x9520;

use board::Board;
use jobfile::Jobs;
use master::Master;
use std::io::{self, BufWriter, Read, Write};

/// The longest job file.
const MOST: usize = 4096;

fn run(file: &[u8], out: &mut impl Write) -> io::Result<()> {
    let mut master = Master::new(Board::new());
    let mut answer = Vec::new();
    for (before, (at, job)) in Jobs::new(file).enumerate() {
        let number = before + 1;
        let result = match job {
            Ok(job) => {
                answer.clear();
                master.run(job, &mut answer).map_err(|refusal| (refusal, refusal.place()))
            }
            Err(refusal) => Err((refusal, at)),
        };
        match result {
            Err((refusal, place)) => writeln!(out, "{number} no {} {place}", refusal.number())?,
            Ok(()) if answer.is_empty() => writeln!(out, "{number} ok -")?,
            Ok(()) => {
                write!(out, "{number} ok ")?;
                for byte in &answer {
                    write!(out, "{byte:02x}")?;
                }
                writeln!(out)?;
            }
        }
    }
    Ok(())
}

fn main() -> io::Result<()> {
    let mut out = BufWriter::new(io::stdout().lock());
    if std::env::args().nth(1).as_deref() == Some("--size") {
        writeln!(out, "{}", size_of::<Board>())?;
        return out.flush();
    }
    let mut file = Vec::new();
    io::stdin().lock().take(MOST as u64 + 1).read_to_end(&mut file)?;
    if file.len() > MOST {
        writeln!(out, "0 no 7 {MOST}")?;
    } else {
        run(&file, &mut out)?;
    }
    out.flush()
}
