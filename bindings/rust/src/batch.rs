//! A schedule of calls, for [`crate::Arena::run`].
use crate::refusal::Refusal;

/// Calls in their order, three words each.
#[derive(Clone, Debug, Default, PartialEq, Eq)]
pub struct Batch {
    words: Vec<u64>,
}

impl Batch {
    pub fn new() -> Batch {
        Batch::default()
    }

    pub fn malloc(&mut self, bytes: u64) -> &mut Batch {
        self.call([0, bytes, 0])
    }

    pub fn free(&mut self, offset: u64) -> &mut Batch {
        self.call([1, offset, 0])
    }

    pub fn realloc(&mut self, offset: u64, bytes: u64) -> &mut Batch {
        self.call([2, offset, bytes])
    }

    pub fn memalign(&mut self, alignment: u64, bytes: u64) -> &mut Batch {
        self.call([3, alignment, bytes])
    }

    fn call(&mut self, words: [u64; 3]) -> &mut Batch {
        self.words.extend(words);
        self
    }

    /// How many calls.
    pub fn len(&self) -> usize {
        self.words.len() / 3
    }

    pub fn is_empty(&self) -> bool {
        self.words.is_empty()
    }

    pub(crate) fn words(&self) -> &[u64] {
        &self.words
    }

    /// The answers as results; refusal 5 names the offset that its call has.
    pub(crate) fn told(&self, answers: &[u64]) -> Vec<Result<u64, Refusal>> {
        let calls = self.words.chunks_exact(3);
        let lines = answers.chunks_exact(2);
        let value = |call: &[u64], line: &[u64]| if line[0] == 5 { call[1] } else { line[1] };
        calls
            .zip(lines)
            .map(|(call, line)| Refusal::or([line[0], value(call, line)]))
            .collect()
    }
}
