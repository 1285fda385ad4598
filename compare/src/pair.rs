//! Our library and the crate on the same arena, step by step.
use crate::batch::Run;
use crate::lent;
use crate::library::{fresh_record, Answer, Library, Ours};
use crate::look;
use crate::oracle::Oracle;
use crate::rebuilt;
use crate::steps::{word, Ask, Step};

pub struct Pair<'a> {
    lib: &'a dyn Library,
    pub heap: Oracle,
    pub ours: Ours,
    before: Ours,
    /// by offset / 16: a block that was granted and not since given back or moved
    live: Vec<bool>,
    blocks: usize,
    /// the calls since a mark
    run: Option<Run>,
}

impl<'a> Pair<'a> {
    /// Both fresh, over the same words of a seed.
    pub fn fresh(lib: &'a dyn Library, words: usize, seed: u64) -> Result<Pair<'a>, String> {
        let bytes = words as u64 * 8;
        let fill = |k: usize| word(seed, k as u64, bytes);
        let heap = Oracle::filled(words, fill);
        let ours = Ours::fresh(lib, (0..words).map(fill).collect())?;
        Pair::of(lib, heap, ours)
    }

    /// Both in a sound state, whatever led there.
    pub fn holding(lib: &'a dyn Library, state: Ours) -> Result<Pair<'a>, String> {
        Pair::of(lib, Oracle::holding(&state), state)
    }

    fn of(lib: &'a dyn Library, heap: Oracle, ours: Ours) -> Result<Pair<'a>, String> {
        let mut live = vec![false; ours.words.len() / 2 + 1];
        let mut blocks = 0;
        for chunk in heap.chunks().iter().filter(|c| c.used) {
            live[chunk.offset as usize / 16 + 1] = true;
            blocks += 1;
        }
        let pair = Pair {
            lib,
            heap,
            before: ours.clone(),
            ours,
            live,
            blocks,
            run: None,
        };
        look::differs(&pair.heap, &pair.ours, &pair.live)?;
        Ok(pair)
    }

    /// The live blocks.
    pub fn blocks(&self) -> impl Iterator<Item = u64> + '_ {
        let all = self.live.iter().enumerate();
        all.filter(|(_, live)| **live).map(|(k, _)| k as u64 * 16)
    }

    /// Takes a step on both; an error says what differs.
    pub fn step(&mut self, step: Step) -> Result<Option<Answer>, String> {
        match step {
            Step::Ask(ask) => self.ask(ask).map(Some),
            Step::Rebuild(start) => {
                self.run = None;
                self.rebuild(start).map(Some)
            }
            Step::AskLent(..) | Step::RebuildLent(_) | Step::SetUp(_) | Step::Sound(_) => {
                lent::refused(self.lib, &self.ours, step).map(Some)
            }
            Step::Mark => {
                self.run = Some(Run::from(&self.ours));
                Ok(None)
            }
            Step::Batch(seed) => match self.run.take() {
                Some(run) => run
                    .compare(self.lib, &self.ours, seed)
                    .map(|calls| Some(Answer::granted(calls))),
                None => Ok(None),
            },
            Step::Write(k, value) => {
                if self.owned(k) {
                    self.write(k, value);
                }
                Ok(None)
            }
            Step::Fill(block, seed) => {
                for k in self.block_words(block) {
                    self.write(k, word(seed, k, self.heap.bytes()));
                }
                Ok(None)
            }
        }
    }

    fn write(&mut self, k: u64, value: u64) {
        self.run = None;
        self.heap.set_word(k, value);
        self.ours.words[k as usize] = value;
    }

    pub fn is_live(&self, offset: u64) -> bool {
        let at = usize::try_from(offset / 16).unwrap_or(usize::MAX);
        offset.is_multiple_of(16) && self.live.get(at) == Some(&true)
    }

    /// The live block at or after a place, going round.
    pub fn live_from(&self, place: u64) -> Option<u64> {
        let count = self.live.len();
        let from = (place / 16) as usize % count;
        let mut all = (from..count).chain(0..from);
        all.find(|k| self.live[*k]).map(|k| k as u64 * 16)
    }

    /// The words of a live block; none elsewhere.
    pub fn block_words(&self, block: u64) -> std::ops::Range<u64> {
        if self.is_live(block) {
            crate::play::block_words(&self.heap, block)
        } else {
            0..0
        }
    }

    /// Whether a word of the arena is in some live block.
    fn owned(&self, k: u64) -> bool {
        // the nearest block that starts at or before the word
        let mut starts = (0..=k / 2).rev().map(|g| g * 16);
        let block = starts.find(|b| self.is_live(*b));
        block.is_some_and(|b| self.block_words(b).contains(&k))
    }

    /// Document 01's refusals 3, 4 and 5, in its order.
    fn refused(&self, ask: Ask) -> Option<Answer> {
        let too_many = |n| n > self.heap.bytes();
        match ask {
            Ask::Memalign(a, _) if !(5..=12).any(|e| a == 1 << e) => Some(Answer::refused(3)),
            Ask::Malloc(n) | Ask::Realloc(_, n) | Ask::Memalign(_, n) if too_many(n) => {
                Some(Answer::refused(4))
            }
            Ask::Free(off) | Ask::Realloc(off, _) | Ask::Usable(off) if !self.is_live(off) => {
                Some(Answer {
                    number: 5,
                    value: off,
                })
            }
            _ => None,
        }
    }

    /// What the crate answers; its null is 6.
    fn crate_answers(&mut self, ask: Ask) -> Answer {
        let place = match ask {
            Ask::Malloc(n) => self.heap.malloc(n),
            Ask::Realloc(off, n) => self.heap.realloc(off, n),
            Ask::Memalign(a, n) => self.heap.memalign(a, n),
            Ask::Free(off) => {
                self.heap.free(off);
                Some(0)
            }
            Ask::Usable(off) => Some((self.heap.chunk_word(off - 16, 1) & !7) - 8),
        };
        place.map_or(Answer::refused(6), Answer::granted)
    }

    fn ask(&mut self, ask: Ask) -> Result<Answer, String> {
        self.before.record = self.ours.record;
        self.before.words.copy_from_slice(&self.ours.words);
        let known = self.refused(ask);
        let answer = self.ours.ask(self.lib, ask)?;
        let expected = known.unwrap_or_else(|| self.crate_answers(ask));
        if answer != expected {
            let who = if known.is_some() {
                "document 01"
            } else {
                "the crate"
            };
            return Err(format!("{ask}: ours {answer}, {who} {expected}"));
        }
        let keeps = answer.number != 0 || matches!(ask, Ask::Usable(_));
        if keeps && self.ours != self.before {
            return Err(format!("{ask}: {answer}, but record or arena changed"));
        }
        self.settle(ask, answer);
        if let Some(run) = &mut self.run {
            run.add(ask, answer);
        }
        look::differs(&self.heap, &self.ours, &self.live)
            .map_err(|what| format!("after {ask}: {answer}, {what}"))?;
        self.fresh_at_last(Step::Ask(ask))?;
        Ok(answer)
    }

    /// The record is made anew, and the crate goes on from the rebuilt state. The blocks are those of before.
    fn rebuild(&mut self, start: u64) -> Result<Answer, String> {
        let (answer, heap) = rebuilt::rebuild(self.lib, &mut self.ours, start)?;
        if let Some(heap) = heap {
            self.heap = heap;
        }
        look::differs(&self.heap, &self.ours, &self.live)
            .map_err(|what| format!("after the rebuild: {answer}, {what}"))?;
        self.fresh_at_last(Step::Rebuild(start))?;
        Ok(answer)
    }

    /// With no block left the record is the fresh one.
    fn fresh_at_last(&self, step: Step) -> Result<(), String> {
        if self.blocks == 0 && self.ours.record != fresh_record(self.heap.bytes()) {
            return Err(format!(
                "after {step}: all is given back, but the record is not fresh"
            ));
        }
        Ok(())
    }

    /// Keeps which blocks are live.
    fn settle(&mut self, ask: Ask, answer: Answer) {
        if answer.number != 0 {
            return;
        }
        if let Ask::Free(off) | Ask::Realloc(off, _) = ask {
            self.live[off as usize / 16] = false;
            self.blocks -= 1;
        }
        if ask.grants() {
            self.live[answer.value as usize / 16] = true;
            self.blocks += 1;
        }
    }
}
