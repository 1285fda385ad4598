//! Our library and the crate in lockstep over histories of all arena sizes, and the check on damaged pairs.
use crate::case::Case;
use crate::damage;
use crate::figures::Figures;
use crate::history::{Call, Maker, Rng, Setting, PLANS};
use crate::library::Library;
use crate::made_up;
use crate::pair::Pair;
use crate::probes;
use crate::steps::{Ask, Step};
use std::time::Duration;

/// Even word counts from 16 to 8,192.
pub const SIZES: u64 = 4_089;

/// How long a case that differs is shortened.
const SHORTENING: Duration = Duration::from_secs(60);

/// `lockstep [CALLS [SEED]]`
#[cfg(library_there)]
pub fn run() {
    let words: Vec<String> = std::env::args().skip(1).collect();
    let number = |i: usize, other: u64| words.get(i).map_or(other, |w| w.parse().unwrap());
    let (calls, seed) = (number(0, 10_000_000), number(1, 1));
    match compare(&crate::library::Linked, calls, seed) {
        Ok(figures) => print!("{figures}"),
        Err(found) => {
            print!("{found}");
            std::process::exit(1);
        }
    }
}

/// Histories until so many calls were compared; an error is the first difference, shortened.
pub fn compare(lib: &dyn Library, calls: u64, seed: u64) -> Result<Figures, String> {
    let mut figures = Figures::default();
    let mut number = 0;
    while figures.calls() < calls {
        let setting = setting(seed, number);
        number += 1;
        let tried = history(lib, setting, &mut figures)
            .and_then(|()| made_up_pairs(lib, setting, &mut figures));
        if let Err(case) = tried {
            return Err(report(lib, *case));
        }
    }
    Ok(figures)
}

/// What a difference comes down to.
fn report(lib: &dyn Library, case: Case) -> String {
    let (steps, words) = (case.steps.len(), case.words);
    let short = case.shortened(lib, SHORTENING);
    let what = short
        .fails(lib)
        .unwrap_or_else(|| "not seen again".to_string());
    format!("DIFFERENCE, shortened from {steps} steps on {words} words\n{short}    {what}\n")
}

/// Every second history goes on to the next arena size; the others are on arenas that fill up soon. A few are long, and
/// of these some so long that the crate's pass after 4,095 frees into trees comes up.
fn setting(seed: u64, number: u64) -> Setting {
    let mut rng = Rng::new(seed.wrapping_mul(0x1_0000_0001) ^ number);
    let soon_full = 16 + 2 * rng.below(if number % 4 == 1 { 32 } else { 256 });
    // a stride that has no factor in common with the number of sizes, so that few histories go far
    let swept = 16 + 2 * ((seed % SIZES + number / 2 * 1_013) % SIZES);
    let (words, times) = match number {
        _ if number % 2048 == 7 => (8192, 100),
        _ if number % 64 == 3 => (soon_full, 20),
        _ if number.is_multiple_of(2) => (swept, 1),
        _ => (soon_full, 1),
    };
    Setting {
        seed: rng.draw(),
        words: words as usize,
        plan: rng.below(PLANS.len() as u64) as usize,
        calls: (40 + rng.below(60) + words / 16) * times,
    }
}

/// One history, with owners' writes, calls that are refused, and damaged copies on the way; at its end all is given back.
fn history(lib: &dyn Library, setting: Setting, figures: &mut Figures) -> Result<(), Box<Case>> {
    let mut rng = Rng::new(setting.seed ^ 0x6c6f_636b);
    let mut maker = Maker::new(setting);
    let mut case = Case {
        words: setting.words,
        seed: setting.seed,
        // every third
        made_up: setting.seed.is_multiple_of(3),
        steps: Vec::new(),
        changes: None,
    };
    let mut pair = match case.start(lib) {
        Ok(pair) => pair,
        Err(_) => return Err(Box::new(case)),
    };
    maker.knows(pair.blocks());
    figures.start(&case);
    // how many calls of a batch are to come
    let mut batched = 0;
    for _ in 0..setting.calls {
        if batched == 0 && rng.chance(3) {
            batched = 1 + rng.below(40);
            take(&mut pair, &mut case, figures, Step::Mark)?;
        }
        let call = maker.next(&pair.heap);
        let granted = take(&mut pair, &mut case, figures, Step::Ask(call.into()))?;
        maker.settle(call, granted.filter(|_| !matches!(call, Call::Free(_))));
        if let Some(old) = left(call, granted).filter(|_| rng.chance(25)) {
            take(&mut pair, &mut case, figures, Step::Ask(Ask::Free(old)))?;
        }
        if let Some(block) = granted.filter(|_| batched == 0) {
            for step in probes::owner(&mut rng, &pair, block) {
                take(&mut pair, &mut case, figures, step)?;
            }
        }
        while rng.chance(35) {
            let step = probes::probe(&mut rng, &pair);
            take(&mut pair, &mut case, figures, step)?;
        }
        // every second history meets rebuilds, after nine in ten of the calls that are in no batch
        if batched == 0 && setting.seed % 4 < 2 && rng.chance(90) {
            take(&mut pair, &mut case, figures, probes::rebuild(&mut rng))?;
        }
        if batched == 1 {
            take(&mut pair, &mut case, figures, Step::Batch(rng.draw()))?;
        }
        batched = batched.saturating_sub(1);
        if rng.chance(4) {
            damaged(lib, &pair, &mut case, &mut rng, figures)?;
        }
    }
    give_all_back(&mut pair, &mut case, &mut rng, figures)
}

/// The place that a call's block has just left: to free it once more is refused with 5.
fn left(call: Call, granted: Option<u64>) -> Option<u64> {
    match call {
        Call::Free(old) => Some(old),
        Call::Realloc(old, _) if granted.is_some_and(|now| now != old) => Some(old),
        _ => None,
    }
}

/// Takes a step and counts it; gives the block that a call granted.
fn take(
    pair: &mut Pair,
    case: &mut Case,
    figures: &mut Figures,
    step: Step,
) -> Result<Option<u64>, Box<Case>> {
    case.steps.push(step);
    match pair.step(step) {
        Err(_) => Err(Box::new(case.clone())),
        Ok(None) => {
            figures.took(step);
            Ok(None)
        }
        Ok(Some(answer)) => {
            figures.add(step, answer);
            let block = matches!(step, Step::Ask(ask) if ask.grants());
            Ok((block && answer.number == 0).then_some(answer.value))
        }
    }
}

/// Some damaged copies of where a history stands.
fn damaged(
    lib: &dyn Library,
    pair: &Pair,
    case: &mut Case,
    rng: &mut Rng,
    figures: &mut Figures,
) -> Result<(), Box<Case>> {
    for _ in 0..3 {
        let changes = damage::changes(rng, &pair.ours);
        match damage::judge(lib, &damage::changed(&pair.ours, &changes)) {
            Ok(found) => figures.judged(&found),
            Err(_) => {
                case.changes = Some(changes);
                return Err(Box::new(case.clone()));
            }
        }
    }
    Ok(())
}

/// A made-up state of the same arena size, as it is and damaged.
fn made_up_pairs(
    lib: &dyn Library,
    setting: Setting,
    figures: &mut Figures,
) -> Result<(), Box<Case>> {
    let mut rng = Rng::new(setting.seed ^ 0x7061_6972);
    let state = made_up::state(setting.seed, setting.words);
    for round in 0..16 {
        let changes = if round == 0 {
            Vec::new()
        } else {
            damage::changes(&mut rng, &state)
        };
        match damage::judge(lib, &damage::changed(&state, &changes)) {
            Ok(found) => figures.judged(&found),
            Err(_) => {
                return Err(Box::new(Case {
                    words: setting.words,
                    seed: setting.seed,
                    made_up: true,
                    steps: Vec::new(),
                    changes: Some(changes),
                }))
            }
        }
    }
    Ok(())
}

/// Frees every block in any order; a pair sees that the record is then the fresh one.
fn give_all_back(
    pair: &mut Pair,
    case: &mut Case,
    rng: &mut Rng,
    figures: &mut Figures,
) -> Result<(), Box<Case>> {
    let bytes = pair.heap.bytes();
    while let Some(block) = pair.live_from(rng.below(bytes)) {
        take(pair, case, figures, Step::Ask(Ask::Free(block)))?;
    }
    Ok(())
}
