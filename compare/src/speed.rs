//! Nanoseconds a call: our checked calls, through the C functions, beside the crate's, on heaps of 10, 100 and 1,000 live
//! blocks of mixed sizes. Both get the same calls in the same order, in turn, and give the same answers. And nanoseconds a
//! chunk for a rebuild.
use crate::figures::grouped;
use crate::history::{Call, Rng};
use crate::library::{Library, Linked, Ours};
use crate::oracle::Oracle;
use std::time::Instant;

const WORDS: usize = 8192;
const LIVE: [usize; 3] = [10, 100, 1000];
/// Each figure is the middle one of so many rounds: short ones, so that most are not interrupted.
const ROUNDS: u64 = 101;
/// Heaps that the crate is timed on in one round.
const HEAPS: u64 = 16;

/// One of the two heaps, as far as the calls go.
trait Heap {
    fn call(&mut self, call: Call) -> Option<u64>;
}

impl Heap for Oracle {
    #[inline]
    fn call(&mut self, call: Call) -> Option<u64> {
        crate::play::call(self, call)
    }
}

impl Heap for Ours {
    #[inline]
    fn call(&mut self, call: Call) -> Option<u64> {
        let mut out = [0; 2];
        let number = Linked.ask(call.into(), &mut self.record, &mut self.words, &mut out);
        (number == 0 && !matches!(call, Call::Free(_))).then_some(out[1])
    }
}

#[derive(Clone, Copy)]
enum Kind {
    MallocFree,
    Realloc,
    MemalignFree,
}

impl Kind {
    fn name(self) -> &'static str {
        match self {
            Kind::MallocFree => "malloc, free",
            Kind::Realloc => "realloc",
            Kind::MemalignFree => "memalign, free",
        }
    }
}

/// `speed`
pub fn run() {
    let (words, machine) = (grouped(WORDS as u64), std::env::consts::ARCH);
    println!("nanoseconds a call on {words} words, the middle of {ROUNDS} rounds, {machine}");
    println!("| calls | live blocks | ours | the crate | times |");
    println!("|---|---|---|---|---|");
    for kind in [Kind::MallocFree, Kind::Realloc, Kind::MemalignFree] {
        for live in LIVE {
            let (ours, theirs) = measure(kind, live);
            let times = ours / theirs;
            println!(
                "| {} | {live} | {ours:.0} | {theirs:.1} | {times:.0} |",
                kind.name()
            );
        }
    }
    rebuilds();
}

/// Nanoseconds a chunk of a rebuild, on whole arenas.
fn rebuilds() {
    println!("\nnanoseconds a chunk, rebuild, the best and the middle of {ROUNDS} rounds");
    println!("| heap | chunks | best | middle |");
    println!("|---|---|---|---|");
    let none = |_: usize| false;
    let second = |k: usize| k % 2 == 1;
    heap_rebuilt("all in use, 32 bytes each", 24, none);
    heap_rebuilt("half free in one small bin, 32 bytes each", 24, second);
    heap_rebuilt("half free in one ring, 272 bytes each", 264, second);
    heap_rebuilt("half free in trees, 256 to 1,264 bytes", 0, second);
}

/// An arena full of blocks of so many bytes, or of mixed large ones, of which some are given back.
fn heap_rebuilt(name: &str, bytes: u64, given_back: impl Fn(usize) -> bool) {
    let mut heap = Ours::fresh(&Linked, vec![0; WORDS]).unwrap();
    let mut rng = Rng::new(1);
    let mut blocks = Vec::new();
    let mut size = || match bytes {
        0 => 248 + 16 * rng.below(64),
        _ => bytes,
    };
    while let Some(block) = heap.call(Call::Malloc(size())) {
        blocks.push(block);
    }
    let chunks = blocks.len() as f64;
    for (k, block) in blocks.iter().enumerate() {
        // the last one stays, so that the top does not grow
        if given_back(k) && k + 1 < blocks.len() {
            heap.call(Call::Free(*block));
        }
    }
    let mut times = Vec::new();
    for _ in 0..ROUNDS {
        let mut out = [0; 2];
        let start = Instant::now();
        let number = Linked.rebuild(&mut heap.record, &mut heap.words, &mut out, 0);
        times.push(start.elapsed().as_nanos() as f64 / chunks);
        assert_eq!(number, 0);
    }
    let best = times.iter().copied().fold(f64::MAX, f64::min);
    println!("| {name} | {chunks} | {best:.1} | {:.1} |", middle(times));
}

/// The middle of the rounds, ours and the crate's.
fn measure(kind: Kind, live: usize) -> (f64, f64) {
    let (mut ours, mut theirs) = (Vec::new(), Vec::new());
    for round in 0..ROUNDS {
        let seed = round * HEAPS;
        let (nanos, calls, told) = one(
            Ours::fresh(&Linked, vec![0; WORDS]).unwrap(),
            kind,
            live,
            seed,
        );
        ours.push(nanos / calls);
        // the crate is so quick that it is timed on several heaps, of which ours is the first
        let all = (0..HEAPS).map(|heap| one(Oracle::new(WORDS), kind, live, seed + heap));
        let all: Vec<(f64, f64, u64)> = all.collect();
        assert_eq!(told, all[0].2, "the answers differ");
        let sum = |part: fn(&(f64, f64, u64)) -> f64| all.iter().map(part).sum::<f64>();
        theirs.push(sum(|a| a.0) / sum(|a| a.1));
    }
    (middle(ours), middle(theirs))
}

fn middle(mut all: Vec<f64>) -> f64 {
    all.sort_by(f64::total_cmp);
    all[all.len() / 2]
}

/// Sizes of a mixed heap whose blocks fit so often.
fn size(rng: &mut Rng, live: usize) -> u64 {
    let most = (WORDS as u64 * 8 / live as u64).min(2048);
    match rng.below(4) {
        0 => 8 + rng.below(most * 3 / 4),
        _ => 8 + rng.below(most / 3),
    }
}

/// Nanoseconds, calls, and a sum of the answers.
fn one(mut heap: impl Heap, kind: Kind, live: usize, seed: u64) -> (f64, f64, u64) {
    let mut rng = Rng::new(seed);
    let mut blocks = mixed(&mut heap, &mut rng, live);
    // drawn before the clock runs
    let mut draw = |_| (rng.below(live as u64) as usize, size(&mut rng, live));
    let steps = 30_000 / (live as u64 + 100);
    let plan: Vec<(usize, u64)> = (0..steps).map(&mut draw).collect();
    let (mut calls, mut sum) = (0, 0);
    let start = Instant::now();
    for (at, bytes) in plan {
        let old = blocks[at];
        let (first, then) = match kind {
            Kind::MallocFree => (Some(Call::Free(old)), Call::Malloc(bytes)),
            Kind::Realloc => (None, Call::Realloc(old, bytes)),
            Kind::MemalignFree => (Some(Call::Free(old)), Call::Memalign(64, bytes / 2)),
        };
        if let Some(free) = first {
            heap.call(free);
            calls += 1;
        }
        let mut granted = heap.call(then);
        calls += 1;
        if granted.is_none() && first.is_some() {
            // no room for it: the least need, which the chunk that was just freed can serve
            granted = heap.call(Call::Malloc(0));
            calls += 1;
        }
        blocks[at] = granted.unwrap_or(old);
        sum += blocks[at];
    }
    (start.elapsed().as_nanos() as f64, calls as f64, sum)
}

/// So many live blocks with gaps between them.
fn mixed(heap: &mut impl Heap, rng: &mut Rng, live: usize) -> Vec<u64> {
    let mut blocks = Vec::new();
    for _ in 0..live * 5 / 4 {
        blocks.extend(heap.call(Call::Malloc(size(rng, live) * 3 / 4)));
    }
    assert!(blocks.len() >= live);
    while blocks.len() > live {
        let at = rng.below(blocks.len() as u64) as usize;
        heap.call(Call::Free(blocks.swap_remove(at)));
    }
    blocks
}
