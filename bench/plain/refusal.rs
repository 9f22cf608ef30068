//! Why a job is refused.

#[derive(Clone, Copy)]
pub enum Refusal {
    BadSample,
    NoSuchPart,
    NothingUnderWay,
    FileEnds,
    UnknownKind,
    OutOfLimit,
    /// The number of the byte in its job.
    NoAck(usize),
    NeverReady,
}

impl Refusal {
    pub fn number(self) -> u8 {
        match self {
            Refusal::BadSample => 1,
            Refusal::NoSuchPart => 2,
            Refusal::NothingUnderWay => 3,
            Refusal::FileEnds => 5,
            Refusal::UnknownKind => 6,
            Refusal::OutOfLimit => 7,
            Refusal::NoAck(_) => 8,
            Refusal::NeverReady => 10,
        }
    }

    pub fn place(self) -> usize {
        match self {
            Refusal::NoAck(byte) => byte,
            _ => 0,
        }
    }
}
