//! Traces of 100,000 calls on 8,192 words, run as one batch, one call at a time, and on the crate: nanoseconds a call. All three
//! start fresh, get the same calls and write the same answers, two words each. The clock is that of the thread's own time.
use crate::history::{Call, Rng};
use crate::library::{Library, Linked, Ours};
use crate::oracle::Oracle;
use crate::play;

const WORDS: usize = 8192;
const CALLS: usize = 100_000;
/// Rounds of the batch and of the crate, in turn.
const ROUNDS: usize = 101;
/// Rounds of the calls one at a time, which take so much longer.
const SINGLE_ROUNDS: usize = 5;

/// What a trace asks for: the weights of malloc, free, realloc and memalign, and its sizes.
struct Kind {
    name: &'static str,
    weights: [u64; 4],
    size: fn(&mut Rng) -> u64,
}

fn small(rng: &mut Rng) -> u64 {
    rng.below(233)
}

fn large(rng: &mut Rng) -> u64 {
    256 + rng.below(3841)
}

/// Three in four small.
fn mixed(rng: &mut Rng) -> u64 {
    match rng.below(4) {
        0 => rng.below(2049),
        _ => small(rng),
    }
}

const KINDS: [Kind; 5] = [
    Kind {
        name: "small",
        weights: [55, 45, 0, 0],
        size: small,
    },
    Kind {
        name: "mixed",
        weights: [44, 34, 16, 6],
        size: mixed,
    },
    Kind {
        name: "large",
        weights: [55, 45, 0, 0],
        size: large,
    },
    Kind {
        name: "resize-heavy",
        weights: [22, 18, 60, 0],
        size: mixed,
    },
    Kind {
        name: "aligned",
        weights: [10, 40, 0, 50],
        size: mixed,
    },
];

/// A trace, three words a call, and what the crate answers, two words each.
struct Trace {
    calls: Vec<u64>,
    answers: Vec<u64>,
    /// blocks at the end
    live: usize,
}

/// Calls on an arena that fills up until there is no room, and then is freed for a while; no other refusal than 6 comes up.
fn trace(kind: &Kind, seed: u64) -> Trace {
    let mut rng = Rng::new(seed);
    let mut heap = Oracle::new(WORDS);
    let mut live: Vec<u64> = Vec::new();
    let (mut calls, mut answers) = (Vec::new(), Vec::new());
    let mut crowded = false;
    for _ in 0..CALLS {
        let (call, at) = next(kind, &mut rng, &live, crowded);
        let line = answer(&mut heap, call);
        calls.extend(words(call));
        answers.extend(line);
        match (line[0], at) {
            (0, Some(at)) if matches!(call, Call::Free(_)) => {
                live.swap_remove(at);
            }
            (0, Some(at)) => live[at] = line[1],
            (0, None) => live.push(line[1]),
            _ => {}
        }
        // some five frees after a refusal
        crowded = line[0] == 6 || (crowded && rng.chance(80));
    }
    Trace {
        calls,
        answers,
        live: live.len(),
    }
}

/// The next call, and which of the live blocks it names.
fn next(kind: &Kind, rng: &mut Rng, live: &[u64], crowded: bool) -> (Call, Option<usize>) {
    let weights = match (live.is_empty(), crowded) {
        (true, _) => [kind.weights[0], 0, 0, kind.weights[3]],
        (_, true) => [0, 1, 0, 0],
        _ => kind.weights,
    };
    let kind_of = rng.weighted(&weights);
    let size = (kind.size)(rng);
    let at = rng.below(live.len().max(1) as u64) as usize;
    match kind_of {
        0 => (Call::Malloc(size), None),
        1 => (Call::Free(live[at]), Some(at)),
        2 => (Call::Realloc(live[at], size), Some(at)),
        _ => (Call::Memalign(32 << rng.below(5), size), None),
    }
}

fn words(call: Call) -> [u64; 3] {
    match call {
        Call::Malloc(n) => [0, n, 0],
        Call::Free(off) => [1, off, 0],
        Call::Realloc(off, n) => [2, off, n],
        Call::Memalign(a, n) => [3, a, n],
    }
}

fn call(words: &[u64]) -> Call {
    match words[0] {
        0 => Call::Malloc(words[1]),
        1 => Call::Free(words[1]),
        2 => Call::Realloc(words[1], words[2]),
        _ => Call::Memalign(words[1], words[2]),
    }
}

/// What the crate answers, as a batch tells it.
#[inline]
fn answer(heap: &mut Oracle, call: Call) -> [u64; 2] {
    match (play::call(heap, call), call) {
        (_, Call::Free(_)) => [0, 0],
        (Some(off), _) => [0, off],
        (None, _) => [6, 0],
    }
}

// ---- the clock

#[repr(C)]
struct Time {
    seconds: i64,
    nanos: i64,
}

extern "C" {
    fn clock_gettime(clock: i32, time: *mut Time) -> i32;
}

/// Nanoseconds that this thread has run.
fn now() -> f64 {
    let mut time = Time {
        seconds: 0,
        nanos: 0,
    };
    // CLOCK_THREAD_CPUTIME_ID
    unsafe { clock_gettime(3, &mut time) };
    time.seconds as f64 * 1e9 + time.nanos as f64
}

/// Nanoseconds a call, once it was seen that the answers are the trace's.
fn timed(trace: &Trace, run: impl FnOnce(&[u64], &mut [u64])) -> f64 {
    let mut answers = vec![0; 2 * CALLS];
    let start = now();
    run(&trace.calls, &mut answers);
    let nanos = now() - start;
    assert!(answers == trace.answers, "the answers differ");
    nanos / CALLS as f64
}

fn batch(trace: &Trace) -> f64 {
    let Ours {
        mut record,
        mut words,
    } = Ours::fresh(&Linked, vec![0; WORDS]).unwrap();
    let mut out = [0; 2];
    timed(trace, |calls, answers| {
        Linked.batch(&mut record, &mut words, &mut out, calls, answers);
    })
}

fn single(trace: &Trace) -> f64 {
    let mut ours = Ours::fresh(&Linked, vec![0; WORDS]).unwrap();
    let mut out = [0; 2];
    timed(trace, |calls, answers| {
        for (asked, line) in calls.chunks_exact(3).zip(answers.chunks_exact_mut(2)) {
            Linked.ask(
                call(asked).into(),
                &mut ours.record,
                &mut ours.words,
                &mut out,
            );
            line.copy_from_slice(&out);
        }
    })
}

fn theirs(trace: &Trace) -> f64 {
    let mut heap = Oracle::new(WORDS);
    timed(trace, |calls, answers| {
        for (asked, line) in calls.chunks_exact(3).zip(answers.chunks_exact_mut(2)) {
            line.copy_from_slice(&answer(&mut heap, call(asked)));
        }
    })
}

fn least(all: &[f64]) -> f64 {
    all.iter().copied().fold(f64::INFINITY, f64::min)
}

fn middle(all: &[f64]) -> f64 {
    let mut all = all.to_vec();
    all.sort_by(f64::total_cmp);
    all[all.len() / 2]
}

/// `traces [SEED]`
pub fn run() {
    let seed = std::env::args().nth(1).map_or(1, |s| s.parse().unwrap());
    println!(
        "nanoseconds a call, {CALLS} calls on {WORDS} words, seed {seed}, {}",
        std::env::consts::ARCH
    );
    print!("| trace | live at the end | batch: best, middle | the crate: best, middle ");
    println!("| times: best, middle | one at a time: best | times |");
    println!("|---|---|---|---|---|---|---|");
    for kind in &KINDS {
        let trace = trace(kind, seed);
        let rounds = || (batch(&trace), theirs(&trace));
        let all: Vec<(f64, f64)> = (0..ROUNDS).map(|_| rounds()).collect();
        let ours: Vec<f64> = all.iter().map(|r| r.0).collect();
        let crate_s: Vec<f64> = all.iter().map(|r| r.1).collect();
        let ratios: Vec<f64> = all.iter().map(|r| r.0 / r.1).collect();
        let single: Vec<f64> = (0..SINGLE_ROUNDS).map(|_| single(&trace)).collect();
        println!(
            "| {} | {} | {:.1}, {:.1} | {:.1}, {:.1} | {:.2}, {:.2} | {:.0} | {:.0} |",
            kind.name,
            trace.live,
            least(&ours),
            middle(&ours),
            least(&crate_s),
            middle(&crate_s),
            least(&ours) / least(&crate_s),
            middle(&ratios),
            least(&single),
            least(&single) / least(&ours)
        );
    }
}
