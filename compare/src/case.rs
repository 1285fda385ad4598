//! A case that can be played again: an arena, a history, and what was then changed in it. A failing one is shortened.
use crate::damage::{self, Change};
use crate::library::{Answer, Library, Ours};
use crate::made_up;
use crate::pair::Pair;
use crate::steps::{Ask, Step};
use std::collections::HashMap;
use std::fmt;
use std::ops::Range;
use std::time::{Duration, Instant};

#[derive(Clone, Debug)]
pub struct Case {
    pub words: usize,
    pub seed: u64,
    /// a sound state from the seed, that no history need reach, instead of a fresh arena
    pub made_up: bool,
    pub steps: Vec<Step>,
    /// with None only the steps are compared
    pub changes: Option<Vec<Change>>,
}

impl Case {
    /// Where the case starts.
    pub fn start<'a>(&self, lib: &'a dyn Library) -> Result<Pair<'a>, String> {
        if self.made_up {
            Pair::holding(lib, made_up::state(self.seed, self.words))
        } else {
            Pair::fresh(lib, self.words, self.seed)
        }
    }

    /// What differs when the case is played; None where nothing does.
    pub fn fails(&self, lib: &dyn Library) -> Option<String> {
        match (self.play(lib), &self.changes) {
            (Err(what), None) => Some(what),
            // a history that differs by itself is another case
            (Err(_), Some(_)) | (Ok(_), None) => None,
            (Ok(state), Some(changes)) => {
                damage::judge(lib, &damage::changed(&state, changes)).err()
            }
        }
    }

    fn play(&self, lib: &dyn Library) -> Result<Ours, String> {
        let mut pair = self.start(lib)?;
        for step in &self.steps {
            pair.step(*step)?;
        }
        Ok(pair.ours)
    }

    /// The case without some steps, or with another instead. Later steps then mean the blocks that they meant, wherever
    /// these stand now.
    fn with(&self, lib: &dyn Library, out: Range<usize>, instead: Option<Step>) -> Option<Case> {
        let mut whole = self.start(lib).ok()?;
        let mut less = self.start(lib).ok()?;
        let mut moved = HashMap::new();
        let mut steps = Vec::new();
        for (i, step) in self.steps.iter().enumerate() {
            let was = whole.step(*step);
            let last = was.is_err();
            let stays = match out.contains(&i) {
                true => instead.filter(|_| i == out.start),
                false => Some(*step),
            };
            if let Some(other) = stays {
                let now = other.of_block(|off| moved.get(&off).copied().unwrap_or(off));
                steps.push(now);
                let is = less.step(now);
                // after a difference the crate knows of other blocks than we do: no step further
                if is.is_err() {
                    break;
                }
                if let (Some(was), Some(is)) = (granted(was, *step), granted(is, now)) {
                    moved.insert(was, is);
                }
            }
            if last {
                break;
            }
        }
        Some(Case {
            steps,
            ..self.clone()
        })
    }

    /// A shorter case that still fails, on a smaller arena if one will do; as short as it gets within the time.
    pub fn shortened(mut self, lib: &dyn Library, time: Duration) -> Case {
        let until = Instant::now() + time;
        loop {
            let before = (self.words, self.made_up, self.size(), self.steps.clone());
            self = shorter_changes(self, lib);
            self = smaller_arena(self, lib, until);
            self = shorter_steps(self, lib, until);
            self = smaller_numbers(self, lib, until);
            let after = (self.words, self.made_up, self.size(), self.steps.clone());
            if after == before || Instant::now() > until {
                return self;
            }
        }
    }

    fn size(&self) -> usize {
        self.steps.len() + self.changes.as_ref().map_or(0, Vec::len)
    }
}

/// The block that a step was granted.
fn granted(told: Result<Option<Answer>, String>, step: Step) -> Option<u64> {
    match (told, step) {
        (Ok(Some(Answer { number: 0, value })), Step::Ask(ask)) if ask.grants() => Some(value),
        _ => None,
    }
}

/// Leaves out stretches of steps, halves first, single ones last.
fn shorter_steps(mut case: Case, lib: &dyn Library, until: Instant) -> Case {
    let mut stretch = case.steps.len().next_power_of_two();
    while stretch > 0 {
        let mut at = 0;
        while at < case.steps.len() && Instant::now() < until {
            let part = at..(at + stretch).min(case.steps.len());
            let mut plain = case.clone();
            plain.steps.drain(part.clone());
            let renamed = case.with(lib, part, None);
            let mut tried = [Some(plain), renamed].into_iter().flatten();
            match tried.find(|less| less.fails(lib).is_some()) {
                Some(less) => case = less,
                None => at += stretch,
            }
        }
        stretch /= 2;
    }
    case
}

fn shorter_changes(mut case: Case, lib: &dyn Library) -> Case {
    let count = case.changes.as_ref().map_or(0, Vec::len);
    for at in (0..count).rev() {
        let mut less = case.clone();
        if let Some(changes) = &mut less.changes {
            changes.remove(at);
        }
        if less.fails(lib).is_some() {
            case = less;
        }
    }
    case
}

/// Asks for less, and plainly, where that fails as well.
fn smaller_numbers(mut case: Case, lib: &dyn Library, until: Instant) -> Case {
    let mut at = 0;
    while at < case.steps.len() && Instant::now() < until {
        let part = at..at + 1;
        for other in simpler(case.steps[at]) {
            let mut plain = case.clone();
            plain.steps[at] = other;
            let renamed = case.with(lib, part.clone(), Some(other));
            let mut tried = [Some(plain), renamed].into_iter().flatten();
            if let Some(less) = tried.find(|less| less.fails(lib).is_some()) {
                case = less;
                break;
            }
        }
        at += 1;
    }
    case
}

/// What could stand for a call, the simplest first.
fn simpler(step: Step) -> Vec<Step> {
    let Step::Ask(ask) = step else {
        return Vec::new();
    };
    let bytes = ask.bytes().unwrap_or(0);
    let less = [0, 24, 256, bytes / 4, bytes / 2];
    let less = less.into_iter().filter(|n| *n < bytes);
    let plain = match ask {
        Ask::Memalign(_, n) => vec![Ask::Malloc(n)],
        _ => Vec::new(),
    };
    let all = plain.into_iter().chain(less.map(|n| ask.of_bytes(n)));
    all.map(Step::Ask).collect()
}

/// A fresh arena, or one with fewer words.
fn smaller_arena(case: Case, lib: &dyn Library, until: Instant) -> Case {
    let sizes = [
        16, 18, 20, 24, 32, 48, 64, 96, 128, 192, 256, 512, 1024, 2048, 4096,
    ];
    let fresh = Case {
        made_up: false,
        ..case.clone()
    };
    if case.made_up && fresh.fails(lib).is_some() {
        return fresh;
    }
    for words in sizes.into_iter().filter(|w| *w < case.words) {
        let less = Case {
            words,
            ..case.clone()
        };
        if Instant::now() < until && less.fails(lib).is_some() {
            return less;
        }
    }
    case
}

impl fmt::Display for Case {
    fn fmt(&self, f: &mut fmt::Formatter) -> fmt::Result {
        let how = if self.made_up {
            "a made-up sound state"
        } else {
            "fresh"
        };
        writeln!(f, "{} words, {how}, seed {}", self.words, self.seed)?;
        if self.made_up {
            let state = made_up::state(self.seed, self.words);
            writeln!(f, "    chunks: {}", made_up::told(&state))?;
        }
        for step in &self.steps {
            writeln!(f, "    {step}")?;
        }
        for change in self.changes.iter().flatten() {
            writeln!(f, "    changed: {change}")?;
        }
        Ok(())
    }
}
