//! When the library says no.
use std::fmt;

#[derive(Clone, Copy, Debug, PartialEq, Eq)]
pub enum Refusal {
    /// the word count is odd, below 16 or above 8,192; of a rebuild also: a start that set-up refuses
    WordCount,
    /// record and arena are not sound, or not a pair
    NotSound,
    /// an alignment that is none of 32, 64, .. 4,096
    Alignment,
    /// more bytes than the arena has
    TooManyBytes,
    /// no live block starts at this offset
    NotLive(u64),
    /// nothing that is free is large enough
    NoRoom,
    /// a batch whose calls are no multiple of three words, or whose answers have too few
    Lists,
}

impl Refusal {
    /// The library's number.
    pub fn number(self) -> u64 {
        match self {
            Refusal::WordCount => 1,
            Refusal::NotSound => 2,
            Refusal::Alignment => 3,
            Refusal::TooManyBytes => 4,
            Refusal::NotLive(_) => 5,
            Refusal::NoRoom => 6,
            Refusal::Lists => 8,
        }
    }

    /// An answer's two words as a result.
    pub(crate) fn or(out: [u64; 2]) -> Result<u64, Refusal> {
        match out {
            [0, value] => Ok(value),
            [1, _] => Err(Refusal::WordCount),
            [3, _] => Err(Refusal::Alignment),
            [4, _] => Err(Refusal::TooManyBytes),
            [5, offset] => Err(Refusal::NotLive(offset)),
            [6, _] => Err(Refusal::NoRoom),
            [8, _] => Err(Refusal::Lists),
            // 2; no call has another
            _ => Err(Refusal::NotSound),
        }
    }
}

impl fmt::Display for Refusal {
    fn fmt(&self, f: &mut fmt::Formatter) -> fmt::Result {
        match self {
            Refusal::WordCount => {
                f.write_str("an arena has an even number of words, from 16 to 8,192")
            }
            Refusal::NotSound => f.write_str("the record and the arena are not sound"),
            Refusal::Alignment => f.write_str("an alignment is a power of two from 32 to 4,096"),
            Refusal::TooManyBytes => f.write_str("more bytes than the whole arena has"),
            Refusal::NotLive(offset) => write!(f, "no live block starts at offset {offset}"),
            Refusal::NoRoom => f.write_str("no room: nothing that is free is large enough"),
            Refusal::Lists => f.write_str("a list of calls or for answers of a wrong length"),
        }
    }
}

impl std::error::Error for Refusal {}
