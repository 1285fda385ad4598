//! An arena that owns its words and its record.
use crate::batch::Batch;
use crate::raw;
use crate::refusal::Refusal;
use std::ops::Range;

/// Words of the largest arena.
pub const LARGEST: usize = 8192;
/// Words of the record.
pub const RECORD_WORDS: usize = 72;

#[derive(Clone, Debug, PartialEq, Eq)]
pub struct Arena {
    record: [u64; RECORD_WORDS],
    words: Vec<u64>,
}

impl Arena {
    /// A fresh arena of so many words of 8 bytes, all 0 but for the heap's own.
    pub fn new(words: usize) -> Result<Arena, Refusal> {
        // nothing is asked of the system for a count that can't be granted
        if words > LARGEST {
            return Err(Refusal::WordCount);
        }
        let mut arena = Arena::from_parts([0; RECORD_WORDS], vec![0; words]);
        let mut out = [0; 2];
        raw::setup(&mut arena.record, &mut arena.words, &mut out);
        Refusal::or(out).map(|_| arena)
    }

    /// Takes a record and words as they stand, whatever they are: where they aren't sound every call says so.
    pub fn from_parts(record: [u64; RECORD_WORDS], words: Vec<u64>) -> Arena {
        Arena { record, words }
    }

    /// The record is lost: makes a new one from the words and their start, the address modulo 4,096, which is 0 in any
    /// arena of this version. Live blocks keep their place and words. Where the words are no sound arena's, or the count
    /// or the start is refused, it hands them back as they were.
    pub fn rebuild(words: Vec<u64>, start: u64) -> Result<Arena, (Refusal, Vec<u64>)> {
        let mut arena = Arena::from_parts([0; RECORD_WORDS], words);
        let mut out = [0; 2];
        raw::rebuild(&mut arena.record, &mut arena.words, &mut out, start);
        match Refusal::or(out) {
            Ok(_) => Ok(arena),
            Err(why) => Err((why, arena.words)),
        }
    }

    /// The record and the words, for a later [`Arena::from_parts`].
    pub fn into_parts(self) -> ([u64; RECORD_WORDS], Vec<u64>) {
        (self.record, self.words)
    }

    pub fn record(&self) -> &[u64; RECORD_WORDS] {
        &self.record
    }

    /// Every word of the arena, the heap's own too.
    pub fn all_words(&self) -> &[u64] {
        &self.words
    }

    /// A block of at least so many bytes, aligned to 16: its offset.
    pub fn malloc(&mut self, bytes: u64) -> Result<u64, Refusal> {
        let mut out = [0; 2];
        raw::malloc(&mut self.record, &mut self.words, &mut out, bytes);
        Refusal::or(out)
    }

    /// Takes a block back.
    pub fn free(&mut self, offset: u64) -> Result<(), Refusal> {
        let mut out = [0; 2];
        raw::free(&mut self.record, &mut self.words, &mut out, offset);
        Refusal::or(out).map(|_| ())
    }

    /// Makes a block so many bytes long; its words go with it. Gives the offset where it stands now.
    pub fn realloc(&mut self, offset: u64, bytes: u64) -> Result<u64, Refusal> {
        let mut out = [0; 2];
        raw::realloc(&mut self.record, &mut self.words, &mut out, offset, bytes);
        Refusal::or(out)
    }

    /// A block whose offset is a multiple of an alignment of 32, 64, .. 4,096.
    pub fn memalign(&mut self, alignment: u64, bytes: u64) -> Result<u64, Refusal> {
        let mut out = [0; 2];
        raw::memalign(
            &mut self.record,
            &mut self.words,
            &mut out,
            alignment,
            bytes,
        );
        Refusal::or(out)
    }

    /// One check, then all calls of a batch: the same answers, and the same heap, as by the calls one at a time.
    pub fn run(&mut self, batch: &Batch) -> Result<Vec<Result<u64, Refusal>>, Refusal> {
        let mut answers = vec![0; 2 * batch.len()];
        self.run_words(batch.words(), &mut answers)?;
        Ok(batch.told(&answers))
    }

    /// The same on words: three a call (kind 0 to 3 for malloc, free, realloc, memalign, then two numbers), two an answer
    /// (refusal, offset). Gives the number of answers; an unknown kind is answered with 9.
    pub fn run_words(&mut self, calls: &[u64], answers: &mut [u64]) -> Result<u64, Refusal> {
        let mut out = [0; 2];
        raw::batch(&mut self.record, &mut self.words, &mut out, calls, answers);
        Refusal::or(out)
    }

    /// How many bytes the owner of a live block has.
    pub fn usable(&self, offset: u64) -> Result<u64, Refusal> {
        let mut out = [0; 2];
        raw::usable(&self.record, &self.words, &mut out, offset);
        Refusal::or(out)
    }

    /// The words of a live block.
    pub fn words(&self, offset: u64) -> Result<&[u64], Refusal> {
        let part = self.part(offset)?;
        self.words.get(part).ok_or(Refusal::NotLive(offset))
    }

    /// The words of a live block, lent to its owner. Nothing that is written there sways a later answer.
    pub fn words_mut(&mut self, offset: u64) -> Result<&mut [u64], Refusal> {
        let part = self.part(offset)?;
        self.words.get_mut(part).ok_or(Refusal::NotLive(offset))
    }

    /// Where a live block's words stand in the arena.
    fn part(&self, offset: u64) -> Result<Range<usize>, Refusal> {
        let bytes = self.usable(offset)?;
        // a live block lies in the arena, so neither number is above 65,536
        let (first, count) = (offset as usize / 8, bytes as usize / 8);
        Ok(first..first + count)
    }

    /// Whether record and arena are sound: exactly then no call says [`Refusal::WordCount`] or [`Refusal::NotSound`].
    pub fn is_sound(&self) -> bool {
        raw::sound(&self.record, &self.words) == 0
    }
}
