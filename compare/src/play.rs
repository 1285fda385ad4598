//! Plays calls on the crate and keeps what it answered.
use crate::history::{Call, Maker, Setting};
use crate::oracle::{Chunk, Oracle, Tree};

/// The parts of the heap that a table or a record shows.
#[derive(Clone, Debug, PartialEq, Eq)]
pub struct Shot {
    pub top: (u64, u64),
    pub dv: Option<(u64, u64)>,
    pub chunks: Vec<Chunk>,
    /// the small bins that hold something, each from the newest
    pub small: Vec<(usize, Vec<u64>)>,
    pub trees: Vec<(usize, Box<Tree>)>,
    pub maps: (u32, u32),
}

impl Shot {
    pub fn of(heap: &Oracle) -> Shot {
        let small = (0..32).map(|i| (i, heap.small_bin(i)));
        let trees = (0..32).filter_map(|i| heap.tree_bin(i).map(|t| (i, t)));
        Shot {
            top: heap.top(),
            dv: heap.dv(),
            chunks: heap.chunks(),
            small: small.filter(|(_, ps)| !ps.is_empty()).collect(),
            trees: trees.collect(),
            maps: (heap.smallmap(), heap.treemap()),
        }
    }
}

/// A call and what came of it.
#[derive(Clone, Copy, Debug)]
pub struct Done {
    pub call: Call,
    /// the block's offset; a free has none
    pub answer: Option<u64>,
    /// words that a realloc carried to another place
    pub copied: u64,
}

#[derive(Clone, Debug)]
pub struct Step {
    pub done: Done,
    pub after: Shot,
}

#[derive(Clone, Debug)]
pub struct History {
    pub seed: u64,
    pub words: usize,
    pub steps: Vec<Step>,
}

/// What the owners of blocks write, so that a realloc's copy can be seen: call number c of a history
/// marks the words that it grants, word k of the block with c * 8192 + k.
#[derive(Default)]
struct Owners {
    calls: u64,
}

impl Owners {
    /// What the block that a call names holds.
    fn held(&self, heap: &Oracle, call: Call) -> Vec<u64> {
        match call {
            Call::Realloc(off, _) => block_words(heap, off).map(|k| heap.word(k)).collect(),
            _ => Vec::new(),
        }
    }

    /// Marks what a grant gave beyond the words that its block held before.
    fn mark(&mut self, heap: &mut Oracle, answer: Option<u64>, held: usize) {
        self.calls += 1;
        let Some(block) = answer else { return };
        for (k, word) in block_words(heap, block).enumerate().skip(held) {
            heap.set_word(word, self.calls * 8192 + k as u64);
        }
    }
}

/// The words of the arena that a block's owner has.
pub fn block_words(heap: &Oracle, block: u64) -> std::ops::Range<u64> {
    let size = heap.chunk_word(block - 16, 1) & !7;
    block / 8..block / 8 + size / 8 - 1
}

fn copied(heap: &Oracle, call: Call, answer: Option<u64>, held: &[u64]) -> u64 {
    match (call, answer) {
        (Call::Realloc(off, _), Some(to)) if to != off => {
            let there = block_words(heap, to).zip(held);
            there.take_while(|(k, w)| heap.word(*k) == **w).count() as u64
        }
        _ => 0,
    }
}

/// One call on the crate.
pub fn call(heap: &mut Oracle, call: Call) -> Option<u64> {
    match call {
        Call::Malloc(n) => heap.malloc(n),
        Call::Realloc(off, n) => heap.realloc(off, n),
        Call::Memalign(a, n) => heap.memalign(a, n),
        Call::Free(off) => {
            heap.free(off);
            None
        }
    }
}

/// Plays the history of a setting on a fresh arena; `each` sees the heap after every call.
pub fn drive(setting: Setting, mut each: impl FnMut(&Oracle, Done)) {
    let mut heap = Oracle::new(setting.words);
    let mut maker = Maker::new(setting);
    let mut owners = Owners::default();
    for _ in 0..setting.calls {
        let next = maker.next(&heap);
        let held = owners.held(&heap, next);
        let answer = call(&mut heap, next);
        let copied = copied(&heap, next, answer, &held);
        owners.mark(&mut heap, answer, held.len());
        maker.settle(next, answer);
        each(
            &heap,
            Done {
                call: next,
                answer,
                copied,
            },
        );
    }
}

/// A history with the crate's answers and the heap after each.
pub fn history(setting: Setting) -> History {
    let mut steps = Vec::new();
    drive(setting, |heap, done| {
        let after = Shot::of(heap);
        steps.push(Step { done, after });
    });
    let Setting { seed, words, .. } = setting;
    History { seed, words, steps }
}

/// Document 01's number for a call that the crate answers with null; 0 where it doesn't.
pub fn refusal(heap_bytes: u64, done: Done) -> u64 {
    match (done.call, done.answer) {
        (Call::Free(_), _) | (_, Some(_)) => 0,
        (Call::Malloc(n) | Call::Realloc(_, n) | Call::Memalign(_, n), None) => {
            if n > heap_bytes {
                4
            } else {
                6
            }
        }
    }
}

/// How many calls of each kind, granted and refused.
#[derive(Default, Clone, Copy)]
pub struct Counts {
    pub histories: u64,
    pub malloc: [u64; 2],
    pub realloc: [u64; 2],
    pub memalign: [u64; 2],
    pub free: u64,
    /// grants of realloc at another place
    pub moved: u64,
}

impl Counts {
    pub fn add(&mut self, history: &History) {
        self.histories += 1;
        for step in &history.steps {
            self.add_call(step.done);
        }
    }

    pub fn add_call(&mut self, done: Done) {
        let refused = usize::from(done.answer.is_none());
        match done.call {
            Call::Malloc(_) => self.malloc[refused] += 1,
            Call::Memalign(..) => self.memalign[refused] += 1,
            Call::Free(_) => self.free += 1,
            Call::Realloc(off, _) => {
                self.realloc[refused] += 1;
                self.moved += u64::from(done.answer.is_some_and(|to| to != off));
            }
        }
    }

    pub fn calls(&self) -> u64 {
        self.grants() + self.refusals() + self.free
    }

    pub fn grants(&self) -> u64 {
        self.malloc[0] + self.realloc[0] + self.memalign[0]
    }

    pub fn refusals(&self) -> u64 {
        self.malloc[1] + self.realloc[1] + self.memalign[1]
    }
}

impl std::fmt::Display for Counts {
    fn fmt(&self, f: &mut std::fmt::Formatter) -> std::fmt::Result {
        let total = (self.histories, self.calls(), self.grants(), self.refusals());
        let (h, c, g, r) = total;
        writeln!(
            f,
            "{h} histories, {c} calls: {g} grants, {r} refusals, {} frees",
            self.free
        )?;
        let kinds = [
            ("malloc", self.malloc),
            ("realloc", self.realloc),
            ("memalign", self.memalign),
        ];
        for (name, [granted, refused]) in kinds {
            writeln!(f, "{name}: {granted} granted, {refused} refused")?;
        }
        write!(f, "realloc moved: {}", self.moved)
    }
}
