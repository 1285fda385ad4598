//! Calls that were made one at a time, made again as one batch from where they began.
use crate::history::Rng;
use crate::library::{unwritten, Answer, Library, Ours};
use crate::steps::Ask;

/// Kinds that no call has.
const UNKNOWN: [u64; 5] = [4, 5, 9, 1 << 32, u64::MAX];

/// Where a stretch of calls began, its calls and their answers.
pub struct Run {
    start: Ours,
    calls: Vec<[u64; 3]>,
    answers: Vec<[u64; 2]>,
}

/// What a batch is lent.
#[derive(Clone, PartialEq, Eq)]
struct Lists {
    calls: Vec<u64>,
    answers: Vec<u64>,
}

impl Run {
    pub fn from(start: &Ours) -> Run {
        Run {
            start: start.clone(),
            calls: Vec::new(),
            answers: Vec::new(),
        }
    }

    /// A call and what it answered. A look at a block is no call of a batch.
    pub fn add(&mut self, ask: Ask, answer: Answer) {
        let call = match ask {
            Ask::Malloc(n) => [0, n, 0],
            Ask::Free(off) => [1, off, 0],
            Ask::Realloc(off, n) => [2, off, n],
            Ask::Memalign(a, n) => [3, a, n],
            Ask::Usable(_) => return,
        };
        let offset = if answer.number == 0 { answer.value } else { 0 };
        self.calls.push(call);
        self.answers.push([answer.number, offset]);
    }

    /// The same as one batch: its answers, and the record and every word as they are now. Gives how many calls it had.
    pub fn compare(&self, lib: &dyn Library, now: &Ours, seed: u64) -> Result<u64, String> {
        let mut rng = Rng::new(seed);
        let (lists, expected) = self.lists(&mut rng);
        let count = expected.len() as u64 / 2;
        self.refused(lib, &lists, &mut rng)?;
        let (mut ours, mut given) = (self.start.clone(), lists.clone());
        let told = run(lib, &mut ours, &mut given)?;
        if told != Answer::granted(count) {
            return Err(format!("a batch of {count} calls: {told}"));
        }
        if given.answers[..expected.len()] != expected {
            let differs = |i: &usize| given.answers[*i] != expected[*i];
            let i = (0..expected.len()).find(differs).unwrap_or(0) / 2;
            let (line, alone) = (&given.answers[2 * i..][..2], &expected[2 * i..][..2]);
            return Err(format!(
                "a batch: its call {i} answers {line:?}, made alone {alone:?}"
            ));
        }
        if given.answers[expected.len()..] != lists.answers[expected.len()..] {
            return Err("a batch: words past the last answer changed".to_string());
        }
        if ours != *now {
            return Err("a batch: record or arena are not those of its calls".to_string());
        }
        Ok(count)
    }

    /// The lists, with calls of unknown kinds between, any number where none is used and words to spare; the answers due.
    fn lists(&self, rng: &mut Rng) -> (Lists, Vec<u64>) {
        let (mut calls, mut due) = (Vec::new(), Vec::new());
        for (call, answer) in self.calls.iter().zip(&self.answers) {
            if rng.chance(10) {
                calls.extend([rng.pick(&UNKNOWN), rng.draw(), rng.draw()]);
                due.extend([9, 0]);
            }
            let unused = if call[0] < 2 { rng.draw() } else { call[2] };
            calls.extend([call[0], call[1], unused]);
            due.extend(answer);
        }
        let answers = unwritten(due.len() + rng.below(4) as usize);
        (Lists { calls, answers }, due)
    }

    /// What can't begin is refused with 1, 2 or 8, in this order, and changes nothing.
    fn refused(&self, lib: &dyn Library, lists: &Lists, rng: &mut Rng) -> Result<(), String> {
        let mut odd = lists.clone();
        match rng.below(3) {
            0 if !lists.calls.is_empty() => odd.answers.truncate(lists.calls.len() / 3 * 2 - 1),
            1 => odd.calls.push(rng.draw()),
            _ => odd.calls.extend([0, 24]),
        }
        still(lib, &self.start, &odd, 8)?;
        let mut other = self.start.clone();
        other.record[6] ^= 1 << rng.below(20);
        still(lib, &other, rng.pick(&[lists, &odd]), 2)?;
        other.words.pop();
        still(lib, &other, rng.pick(&[lists, &odd]), 1)
    }
}

fn run(lib: &dyn Library, ours: &mut Ours, lists: &mut Lists) -> Result<Answer, String> {
    let mut out = unwritten(2);
    let Ours { record, words } = ours;
    let returned = lib.batch(record, words, &mut out, &lists.calls, &mut lists.answers);
    if returned != out[0] {
        return Err(format!(
            "a batch: returned {returned}, but wrote {}",
            out[0]
        ));
    }
    let (number, value) = (out[0], out[1]);
    Ok(Answer { number, value })
}

/// The batch is refused whole with a number.
fn still(lib: &dyn Library, state: &Ours, lists: &Lists, number: u64) -> Result<(), String> {
    let (mut ours, mut given) = (state.clone(), lists.clone());
    let told = run(lib, &mut ours, &mut given)?;
    if told != Answer::refused(number) {
        return Err(format!("a batch that is refused with {number}: {told}"));
    }
    if ours != *state || given != *lists {
        return Err(format!(
            "a batch refused with {number}, but something changed"
        ));
    }
    Ok(())
}

/// On any pair: refused with 2 where it isn't sound, else some calls as they answer one at a time.
pub fn judge(lib: &dyn Library, state: &Ours, sound: bool, asks: &[Ask]) -> Result<u64, String> {
    let mut after = state.clone();
    let mut run = Run::from(state);
    for ask in asks {
        run.add(*ask, after.ask(lib, *ask)?);
    }
    let lists = run.lists(&mut Rng::new(1)).0;
    if !sound {
        still(lib, state, &lists, 2)?;
        return Ok(asks.len() as u64);
    }
    run.compare(lib, &after, 1)
}
