//! What a run of the lockstep comparison looked at.
use crate::case::Case;
use crate::damage::Found;
use crate::library::Answer;
use crate::lockstep::SIZES;
use crate::steps::{Ask, Step};
use std::collections::BTreeSet;
use std::fmt;

#[derive(Default, Debug)]
pub struct Figures {
    histories: u64,
    made_up: u64,
    sizes: BTreeSet<usize>,
    malloc: u64,
    realloc: u64,
    memalign: u64,
    /// grants of realloc at another place
    moved: u64,
    frees: u64,
    usable: u64,
    rebuilds: u64,
    /// by number
    refusals: [u64; 7],
    writes: u64,
    batches: u64,
    batch_calls: u64,
    pairs: u64,
    sound_pairs: u64,
    rebuilt_pairs: u64,
    pair_calls: u64,
}

impl Figures {
    pub fn start(&mut self, case: &Case) {
        self.histories += 1;
        self.made_up += u64::from(case.made_up);
        self.sizes.insert(case.words);
    }

    /// A step that is no call.
    pub fn took(&mut self, step: Step) {
        self.writes += u64::from(matches!(step, Step::Write(..) | Step::Fill(..)));
    }

    /// A call and its answer.
    pub fn add(&mut self, step: Step, answer: Answer) {
        if answer.number != 0 {
            self.refusals[answer.number as usize] += 1;
            return;
        }
        let ask = match step {
            Step::Ask(ask) => ask,
            Step::Rebuild(_) => {
                self.rebuilds += 1;
                return;
            }
            Step::Batch(_) => {
                self.batches += 1;
                self.batch_calls += answer.value;
                return;
            }
            _ => return,
        };
        match ask {
            Ask::Malloc(_) => self.malloc += 1,
            Ask::Memalign(..) => self.memalign += 1,
            Ask::Free(_) => self.frees += 1,
            Ask::Usable(_) => self.usable += 1,
            Ask::Realloc(off, _) => {
                self.realloc += 1;
                self.moved += u64::from(answer.value != off);
            }
        }
    }

    pub fn judged(&mut self, found: &Found) {
        self.pairs += 1;
        self.sound_pairs += u64::from(found.sound);
        self.rebuilt_pairs += u64::from(found.rebuilt);
        self.pair_calls += found.calls;
    }

    fn grants(&self) -> u64 {
        self.malloc + self.realloc + self.memalign
    }

    pub fn calls(&self) -> u64 {
        let told = self.frees + self.usable + self.rebuilds;
        self.grants() + told + self.refusals.iter().sum::<u64>()
    }
}

impl fmt::Display for Figures {
    fn fmt(&self, f: &mut fmt::Formatter) -> fmt::Result {
        writeln!(f, "| what | how many |\n|---|---|")?;
        let mut row = |name: &str, n: u64| writeln!(f, "| {name} | {} |", grouped(n));
        row("histories", self.histories)?;
        row("- from a made-up sound state", self.made_up)?;
        let sizes = format!("arena sizes, of {} allowed", grouped(SIZES));
        row(&sizes, self.sizes.len() as u64)?;
        row("calls in lockstep", self.calls())?;
        row("grants", self.grants())?;
        row("- malloc", self.malloc)?;
        row("- realloc", self.realloc)?;
        row("- of these moved", self.moved)?;
        row("- memalign", self.memalign)?;
        row("frees", self.frees)?;
        row("usable bytes told", self.usable)?;
        row("rebuilds", self.rebuilds)?;
        for number in 1..7 {
            row(&format!("refusal {number}"), self.refusals[number])?;
        }
        row("owners' writes", self.writes)?;
        row("batches", self.batches)?;
        row("- calls in them", self.batch_calls)?;
        row("damaged and made-up pairs", self.pairs)?;
        row("- of these sound", self.sound_pairs)?;
        row("- of these rebuilt from their words", self.rebuilt_pairs)?;
        row("- calls on them", self.pair_calls)?;
        row("differences", 0)
    }
}

/// 1,234,567
pub fn grouped(n: u64) -> String {
    let digits = n.to_string();
    let mut text = String::new();
    for (i, digit) in digits.chars().enumerate() {
        if i > 0 && (digits.len() - i).is_multiple_of(3) {
            text.push(',');
        }
        text.push(digit);
    }
    text
}
