//! Our library: its calls, and a record and words that they are given.
use crate::oracle::NONE;
use crate::steps::{word, Ask};
use std::fmt;

pub const RECORD_WORDS: usize = 72;
/// What stands in the answer's words before a call.
const UNWRITTEN: u64 = 0x756e_7772;

/// The linked one, or one that is wrong on purpose.
pub trait Library {
    fn setup(&self, rec: &mut [u64], words: &mut [u64], out: &mut [u64]) -> u64;
    fn ask(&self, ask: Ask, rec: &mut [u64], words: &mut [u64], out: &mut [u64]) -> u64;
    fn rebuild(&self, rec: &mut [u64], words: &mut [u64], out: &mut [u64], start: u64) -> u64;
    fn batch(
        &self,
        rec: &mut [u64],
        words: &mut [u64],
        out: &mut [u64],
        calls: &[u64],
        answers: &mut [u64],
    ) -> u64;
    fn sound(&self, rec: &[u64], words: &[u64]) -> u64;
}

/// The archive that was linked.
#[cfg(library_there)]
pub struct Linked;

#[cfg(library_there)]
impl Library for Linked {
    fn setup(&self, rec: &mut [u64], words: &mut [u64], out: &mut [u64]) -> u64 {
        crate::raw::setup(rec, words, out)
    }

    fn ask(&self, ask: Ask, rec: &mut [u64], words: &mut [u64], out: &mut [u64]) -> u64 {
        match ask {
            Ask::Malloc(n) => crate::raw::malloc(rec, words, out, n),
            Ask::Free(off) => crate::raw::free(rec, words, out, off),
            Ask::Realloc(off, n) => crate::raw::realloc(rec, words, out, off, n),
            Ask::Memalign(a, n) => crate::raw::memalign(rec, words, out, a, n),
            Ask::Usable(off) => crate::raw::usable(rec, words, out, off),
        }
    }

    fn rebuild(&self, rec: &mut [u64], words: &mut [u64], out: &mut [u64], start: u64) -> u64 {
        crate::raw::rebuild(rec, words, out, start)
    }

    fn batch(
        &self,
        rec: &mut [u64],
        words: &mut [u64],
        out: &mut [u64],
        calls: &[u64],
        answers: &mut [u64],
    ) -> u64 {
        crate::raw::batch(rec, words, out, calls, answers)
    }

    fn sound(&self, rec: &[u64], words: &[u64]) -> u64 {
        crate::raw::sound(rec, words)
    }
}

/// The refusal's number, 0 for none, and the offset or the bytes.
#[derive(Clone, Copy, Debug, PartialEq, Eq)]
pub struct Answer {
    pub number: u64,
    pub value: u64,
}

impl Answer {
    pub fn granted(value: u64) -> Answer {
        Answer { number: 0, value }
    }

    pub fn refused(number: u64) -> Answer {
        Answer { number, value: 0 }
    }
}

impl fmt::Display for Answer {
    fn fmt(&self, f: &mut fmt::Formatter) -> fmt::Result {
        match self.number {
            0 => write!(f, "{}", self.value),
            5 => write!(f, "refusal 5 of offset {}", self.value),
            n => write!(f, "refusal {n}"),
        }
    }
}

#[derive(Clone, Debug, PartialEq, Eq)]
pub struct Ours {
    pub record: [u64; RECORD_WORDS],
    pub words: Vec<u64>,
}

/// What set-up makes of an arena of so many bytes.
pub fn fresh_record(bytes: u64) -> [u64; RECORD_WORDS] {
    let mut record = [NONE; RECORD_WORDS];
    record[..8].copy_from_slice(&[0, 0, NONE, 0, 0, bytes - 80, bytes, 0]);
    record
}

/// What a refused set-up hands back: every place none, every other number 0.
pub fn empty_record() -> [u64; RECORD_WORDS] {
    let mut record = [NONE; RECORD_WORDS];
    record[..8].copy_from_slice(&[0, 0, NONE, 0, NONE, 0, 0, 0]);
    record
}

impl Ours {
    /// Set-up over words as they stand; an error says what isn't as document 01 has it.
    pub fn fresh(lib: &dyn Library, words: Vec<u64>) -> Result<Ours, String> {
        let bytes = words.len() as u64 * 8;
        let mut expected = words.clone();
        expected[1] = bytes - 79;
        expected[words.len() - 9] = 80;
        let mut ours = Ours {
            record: [UNWRITTEN; RECORD_WORDS],
            words,
        };
        let mut out = [UNWRITTEN; 2];
        let returned = lib.setup(&mut ours.record, &mut ours.words, &mut out);
        if (returned, out) != (0, [0, 0]) {
            return Err(format!("setup: {returned} {out:?}"));
        }
        if ours.record != fresh_record(bytes) || ours.words != expected {
            return Err("setup: not the fresh record and arena".to_string());
        }
        Ok(ours)
    }

    pub fn ask(&mut self, lib: &dyn Library, ask: Ask) -> Result<Answer, String> {
        let mut out = [UNWRITTEN; 2];
        let returned = lib.ask(ask, &mut self.record, &mut self.words, &mut out);
        let [number, value] = out;
        if returned != number {
            return Err(format!("{ask}: returned {returned}, but wrote {number}"));
        }
        Ok(Answer { number, value })
    }

    /// The record is made anew from the words; what stands in it before is anything.
    pub fn rebuild(&mut self, lib: &dyn Library, start: u64) -> Result<Answer, String> {
        let bytes = self.words.len() as u64 * 8;
        for (i, lost) in self.record.iter_mut().enumerate() {
            *lost = word(self.words[i % self.words.len()], i as u64, bytes);
        }
        let mut out = [UNWRITTEN; 2];
        let returned = lib.rebuild(&mut self.record, &mut self.words, &mut out, start);
        let [number, value] = out;
        if returned != number || value != 0 {
            return Err(format!("rebuild: returned {returned}, but wrote {out:?}"));
        }
        Ok(Answer { number, value })
    }
}

/// An answer of so many words as a call finds it.
pub fn unwritten(words: usize) -> Vec<u64> {
    vec![UNWRITTEN; words]
}
