//! Records and arenas in which something was changed: the library's check against the reading of document 01.
use crate::batch;
use crate::history::Rng;
use crate::library::{Library, Ours, RECORD_WORDS};
use crate::oracle::{NONE, ROOT};
use crate::reading;
use crate::rebuilt;
use crate::steps::Ask;
use crate::whole;
use std::fmt;

#[derive(Clone, Copy, Debug, PartialEq, Eq)]
pub enum Change {
    Record(usize, u64),
    Word(usize, u64),
}

impl fmt::Display for Change {
    fn fmt(&self, f: &mut fmt::Formatter) -> fmt::Result {
        match self {
            Change::Record(i, value) => write!(f, "word {i} of the record to {value}"),
            Change::Word(k, value) => write!(f, "word {k} to {value}"),
        }
    }
}

pub fn changed(state: &Ours, changes: &[Change]) -> Ours {
    let mut state = state.clone();
    for change in changes {
        match change {
            Change::Record(i, value) => state.record[*i] = *value,
            Change::Word(k, value) => {
                // a shortened case may have fewer words
                if let Some(word) = state.words.get_mut(*k) {
                    *word = *value;
                }
            }
        }
    }
    state
}

/// What was found of a pair, and how many calls were asked about it.
pub struct Found {
    pub sound: bool,
    /// a new record was made from its words
    pub rebuilt: bool,
    pub calls: u64,
}

/// The library's check says what the reading says, and every call answers 2 exactly then and changes nothing. A rebuild is
/// granted exactly where the reading finds a tiling.
pub fn judge(lib: &dyn Library, state: &Ours) -> Result<Found, String> {
    let sound = reading::sound(&state.record, &state.words);
    let expected = if sound { 0 } else { 2 };
    let said = lib.sound(&state.record, &state.words);
    if said != expected {
        return Err(format!("the check says {said}, the reading {expected}"));
    }
    let block = some_block(state);
    let asks = [
        Ask::Malloc(24),
        Ask::Malloc(400),
        Ask::Free(block),
        Ask::Realloc(block, 100),
        Ask::Memalign(64, 40),
        Ask::Usable(block),
    ];
    let mut after = state.clone();
    for ask in asks {
        let answer = after.ask(lib, ask)?;
        if (answer.number == 2) == sound || answer.number == 1 {
            return Err(format!(
                "{ask}: {answer}, on a pair that the reading answers {expected}"
            ));
        }
        if answer.number == 0 {
            // a sound pair stays sound, and is asked the next from its start
            if !reading::sound(&after.record, &after.words) {
                return Err(format!("{ask}: {answer}, and the pair is sound no more"));
            }
            after.clone_from(state);
        } else if after != *state {
            return Err(format!("{ask}: {answer}, but record or arena changed"));
        }
    }
    after.clone_from(state);
    let (answer, _) = rebuilt::rebuild(lib, &mut after, 0)?;
    after.clone_from(state);
    let calls = 10 + batch::judge(lib, state, sound, &asks)?;
    odd_count(lib, &mut after)?;
    Ok(Found {
        sound,
        rebuilt: answer.number == 0,
        calls,
    })
}

/// Whatever the record is, with a word count that isn't allowed the answer is 1.
fn odd_count(lib: &dyn Library, state: &mut Ours) -> Result<(), String> {
    state.words.pop();
    let before = state.clone();
    let said = lib.sound(&state.record, &state.words);
    let answer = state.ask(lib, Ask::Malloc(24))?;
    if (said, answer.number) != (1, 1) || *state != before {
        return Err(format!(
            "without the last word: the check {said}, malloc 24 {answer}"
        ));
    }
    Ok(())
}

/// The first used chunk's block, as far as heads can be followed.
fn some_block(state: &Ours) -> u64 {
    let head = |at: u64| state.words.get(at as usize / 8 + 1).copied();
    let mut at = 0;
    for _ in 0..64 {
        match head(at) {
            Some(h) if h & 2 != 0 => return at + 16,
            Some(h) if h >= 16 => at = at.wrapping_add(h & !15) % (1 << 17),
            _ => break,
        }
    }
    16
}

/// The words that document 01 says something about, in a sound state, and the chunks.
pub struct Places {
    pub words: Vec<usize>,
    pub chunks: Vec<u64>,
    pub free: Vec<u64>,
    pub trees: Vec<u64>,
}

fn places(state: &Ours) -> Places {
    let mut all = Places {
        words: Vec::new(),
        chunks: Vec::new(),
        free: Vec::new(),
        trees: Vec::new(),
    };
    let top = state.record[4];
    let mut at = 0;
    while at < top {
        let first = at as usize / 8;
        let head = state.words[first + 1];
        let size = head & !7;
        all.words.push(first + 1);
        all.chunks.push(at);
        if head & 2 == 0 {
            let last = if size < 256 { 3 } else { 7 };
            all.words.extend(first + 2..=first + last);
            all.words.push((at + size) as usize / 8);
            all.free.push(at);
            if size >= 256 {
                all.trees.push(at);
            }
        }
        at += size;
    }
    all.words.push(top as usize / 8 + 1);
    all.words.push(state.words.len() - 9);
    all
}

/// One to three changes of a sound state: mostly of words and numbers that matter, mostly to values that look right.
pub fn changes(rng: &mut Rng, state: &Ours) -> Vec<Change> {
    let places = places(state);
    if rng.chance(35) {
        let whole = whole::change(rng, state, &places);
        if !whole.is_empty() {
            return whole;
        }
    }
    let count = rng.pick(&[1, 1, 1, 1, 2, 2, 3]);
    (0..count)
        .map(|_| match rng.below(12) {
            0..=2 if !places.trees.is_empty() => {
                let k = rng.pick(&places.trees) as usize / 8 + 2 + rng.below(6) as usize;
                Change::Word(k, value(rng, state, &places, state.words[k]))
            }
            0..=6 => {
                let k = rng.pick(&places.words);
                Change::Word(k, value(rng, state, &places, state.words[k]))
            }
            7..=10 => {
                let i = record_word(rng, state);
                Change::Record(i, value(rng, state, &places, state.record[i]))
            }
            _ => {
                let k = rng.below(state.words.len() as u64) as usize;
                Change::Word(k, value(rng, state, &places, state.words[k]))
            }
        })
        .collect()
}

/// A bin that is filled half the time.
fn record_word(rng: &mut Rng, state: &Ours) -> usize {
    let filled: Vec<usize> = (8..RECORD_WORDS)
        .filter(|i| state.record[*i] != NONE)
        .collect();
    match rng.below(4) {
        0 => rng.below(8) as usize,
        1..=2 if !filled.is_empty() => rng.pick(&filled),
        _ => rng.below(RECORD_WORDS as u64) as usize,
    }
}

fn value(rng: &mut Rng, state: &Ours, places: &Places, old: u64) -> u64 {
    let chunk = |rng: &mut Rng, from: &[u64]| if from.is_empty() { 0 } else { rng.pick(from) };
    match rng.below(16) {
        0 => old.wrapping_add(rng.pick(&[1, 2, 4, 8, 16, 32])),
        1 => old.wrapping_sub(rng.pick(&[1, 2, 4, 8, 16, 32])),
        2 => old ^ rng.pick(&[1, 2, 3, 4, 8, 16]),
        3 => old ^ (1 << rng.below(64)),
        4 => NONE,
        5 => rng.pick(&[ROOT, 0, 80, 1, 31, 32]),
        6..=8 => chunk(rng, &places.free),
        9 => chunk(rng, &places.trees),
        10 => chunk(rng, &places.chunks),
        11 => chunk(rng, &places.chunks) + rng.pick(&[1, 8, 16]),
        12 => state.words[rng.pick(&places.words)],
        13 => state.record[rng.below(RECORD_WORDS as u64) as usize],
        14 => rng.pick(&[state.record[4], state.record[2], state.record[6], 1 << 32]),
        _ => rng.draw() << rng.below(17),
    }
}
