//! The errors that the files of OpenTFRaw make, and the numbers that document 01 gives them.

#[derive(Debug)]
pub enum Error {
    /// The reader's own: a read, a skip or a count passes the end of the bytes.
    RanOut {
        offset: u64,
        needed: u64,
    },
    /// bytes.rs: a body ends before a number.
    UnexpectedEof {
        offset: u64,
        needed: usize,
    },
    InvalidPrecursorMz {
        offset: u64,
        mz: f64,
    },
    UnrecognizedScanRecord {
        offset: u64,
    },
    Io(std::io::Error),
}

pub type Result<T> = std::result::Result<T, Error>;

impl From<std::io::Error> for Error {
    fn from(error: std::io::Error) -> Self {
        Self::Io(error)
    }
}

impl Error {
    /// Document 01's number of the refusal.
    pub fn number(&self) -> u32 {
        match self {
            Self::RanOut { .. } => 1,
            Self::UnrecognizedScanRecord { .. } => 2,
            Self::InvalidPrecursorMz { .. } => 3,
            Self::UnexpectedEof { .. } => 4,
            // The requests hold their bytes in memory, where no read or seek fails.
            Self::Io(error) => panic!("bytes in memory: {error}"),
        }
    }
}
