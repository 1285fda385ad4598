//! What a history in lockstep is made of. Each step means something in any state, so that a history can be shortened.
use crate::history::Call;
use std::fmt;

/// A call of our library.
#[derive(Clone, Copy, Debug, PartialEq, Eq)]
pub enum Ask {
    Malloc(u64),
    Free(u64),
    Realloc(u64, u64),
    Memalign(u64, u64),
    Usable(u64),
}

/// What is lent with a call, where it isn't what belongs to it.
#[derive(Clone, Copy, Debug, PartialEq, Eq)]
pub enum Lent {
    /// an arena of so many words: the first ones, or with zeros behind
    Words(usize),
    /// a record of another length than 72
    Record(usize),
    /// an answer below two words
    Out(usize),
}

#[derive(Clone, Copy, Debug, PartialEq, Eq)]
pub enum Step {
    Ask(Ask),
    AskLent(Lent, Ask),
    /// the record is lost and made anew, with this start
    Rebuild(u64),
    /// the same with what doesn't fit
    RebuildLent(Lent),
    /// set-up with what doesn't fit
    SetUp(Lent),
    /// the check with what doesn't fit
    Sound(Lent),
    /// a batch begins here
    Mark,
    /// the calls since the mark, as one batch; nothing where an owner wrote or the record was rebuilt since, or nothing was marked
    Batch(u64),
    /// the owner of a word of the arena writes it; nothing where it has none
    Write(u64, u64),
    /// the owner of a block fills it with [`word`]s of a seed; nothing where there is no such block
    Fill(u64, u64),
}

impl Step {
    /// The same step of another block.
    pub fn of_block(self, other: impl Fn(u64) -> u64) -> Step {
        match self {
            Step::Ask(ask) => Step::Ask(ask.of_block(other)),
            Step::AskLent(lent, ask) => Step::AskLent(lent, ask.of_block(other)),
            Step::Fill(block, seed) => Step::Fill(other(block), seed),
            Step::Rebuild(_) | Step::RebuildLent(_) => self,
            Step::SetUp(_) | Step::Sound(_) | Step::Write(..) => self,
            Step::Mark | Step::Batch(_) => self,
        }
    }
}

impl From<Call> for Ask {
    fn from(call: Call) -> Ask {
        match call {
            Call::Malloc(n) => Ask::Malloc(n),
            Call::Free(off) => Ask::Free(off),
            Call::Realloc(off, n) => Ask::Realloc(off, n),
            Call::Memalign(a, n) => Ask::Memalign(a, n),
        }
    }
}

impl Ask {
    /// How many bytes are asked for.
    pub fn bytes(self) -> Option<u64> {
        match self {
            Ask::Malloc(n) | Ask::Realloc(_, n) | Ask::Memalign(_, n) => Some(n),
            Ask::Free(_) | Ask::Usable(_) => None,
        }
    }

    /// The same of another block.
    pub fn of_block(self, other: impl Fn(u64) -> u64) -> Ask {
        match self {
            Ask::Free(off) => Ask::Free(other(off)),
            Ask::Realloc(off, n) => Ask::Realloc(other(off), n),
            Ask::Usable(off) => Ask::Usable(other(off)),
            Ask::Malloc(_) | Ask::Memalign(..) => self,
        }
    }

    /// Whether an offset is what this answers where it isn't refused.
    pub fn grants(self) -> bool {
        matches!(self, Ask::Malloc(_) | Ask::Realloc(..) | Ask::Memalign(..))
    }

    /// The same for another number of bytes.
    pub fn of_bytes(self, n: u64) -> Ask {
        match self {
            Ask::Malloc(_) => Ask::Malloc(n),
            Ask::Realloc(off, _) => Ask::Realloc(off, n),
            Ask::Memalign(a, _) => Ask::Memalign(a, n),
            other => other,
        }
    }
}

impl fmt::Display for Ask {
    fn fmt(&self, f: &mut fmt::Formatter) -> fmt::Result {
        match self {
            Ask::Malloc(n) => write!(f, "malloc {n}"),
            Ask::Free(off) => write!(f, "free {off}"),
            Ask::Realloc(off, n) => write!(f, "realloc {off} to {n}"),
            Ask::Memalign(a, n) => write!(f, "memalign {a}, {n}"),
            Ask::Usable(off) => write!(f, "usable {off}"),
        }
    }
}

impl fmt::Display for Lent {
    fn fmt(&self, f: &mut fmt::Formatter) -> fmt::Result {
        match self {
            Lent::Words(n) => write!(f, "lent {n} words"),
            Lent::Record(n) => write!(f, "lent a record of {n} words"),
            Lent::Out(n) => write!(f, "lent {n} words for the answer"),
        }
    }
}

impl fmt::Display for Step {
    fn fmt(&self, f: &mut fmt::Formatter) -> fmt::Result {
        match self {
            Step::Ask(ask) => write!(f, "{ask}"),
            Step::AskLent(lent, ask) => write!(f, "{ask}, {lent}"),
            Step::Rebuild(start) => write!(f, "rebuild, start {start}"),
            Step::RebuildLent(lent) => write!(f, "rebuild, {lent}"),
            Step::SetUp(lent) => write!(f, "set-up, {lent}"),
            Step::Sound(lent) => write!(f, "the check, {lent}"),
            Step::Mark => write!(f, "a batch begins"),
            Step::Batch(seed) => write!(f, "the batch, seed {seed}"),
            Step::Write(k, value) => write!(f, "the owner of word {k} writes {value}"),
            Step::Fill(block, seed) => {
                write!(f, "the owner of block {block} fills it, seed {seed}")
            }
        }
    }
}

/// What an owner writes in word k: any number, but often one that looks like a head, a link or the heap's own. Never 0,
/// which the crate reads as a link to nothing.
pub fn word(seed: u64, k: u64, bytes: u64) -> u64 {
    let h = mixed(seed ^ mixed(k));
    let looks = match h % 8 {
        0 => 16 * (2 + (h >> 32) % 40) + (h >> 8) % 8,
        1 => 16 * ((h >> 8) % (bytes / 16)),
        2 => bytes - 80 + (h >> 8) % 4,
        3 => [80, u64::MAX, u64::MAX - 1, 31][(h >> 8) as usize % 4],
        _ => h,
    };
    looks.max(1)
}

/// splitmix64's last step: near numbers go far apart.
fn mixed(n: u64) -> u64 {
    let n = n.wrapping_add(0x9e37_79b9_7f4a_7c15);
    let n = (n ^ (n >> 30)).wrapping_mul(0xbf58_476d_1ce4_e5b9);
    let n = (n ^ (n >> 27)).wrapping_mul(0x94d0_49bb_1331_11eb);
    n ^ (n >> 31)
}
