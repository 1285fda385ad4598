//! Nanoseconds of the tree index alone, of a free into a tree, and of malloc and free of large blocks: two versions of our library,
//! given as shared libraries, in turn in one run. `index_speed.sh` makes the two. The calls on a heap go through `nuka_batch`, so that
//! one check stands before many calls.
use rng::Rng;
use std::ffi::{c_char, c_int, c_void, CString};
use std::time::Instant;

// the two libraries are all that is needed here: neither the crate's source nor our archive
#[path = "../rng.rs"]
#[allow(dead_code)]
mod rng;

const WORDS: usize = 8192;
const ROUNDS: usize = 4001;
/// Sizes drawn, and how many of them a round takes.
const DRAWN: usize = 1 << 20;
const SIZES: usize = 4096;
/// Calls of the long list.
const CALLS: usize = 20_000;

type Index = extern "C" fn(u64) -> u32;
type Setup = extern "C" fn(*mut u64, u64, *mut u64, u64, *mut u64, u64) -> u64;
type Batch = extern "C" fn(
    *mut u64,
    u64,
    *mut u64,
    u64,
    *mut u64,
    u64,
    *const u64,
    u64,
    *mut u64,
    u64,
) -> u64;

extern "C" {
    fn dlopen(name: *const c_char, flag: c_int) -> *mut c_void;
    fn dlsym(library: *mut c_void, name: *const c_char) -> *mut c_void;
}

struct Version {
    index: Index,
    setup: Setup,
    batch: Batch,
}

fn load(path: &str) -> Version {
    let text = |s: &str| CString::new(s).unwrap();
    // SAFETY: the three functions have these types in every version
    unsafe {
        let library = dlopen(text(path).as_ptr(), 2);
        assert!(!library.is_null(), "{path} can't be loaded");
        let find = |name: &str| {
            let at = dlsym(library, text(name).as_ptr());
            assert!(!at.is_null(), "{path} has no {name}");
            at
        };
        Version {
            index: std::mem::transmute::<*mut c_void, Index>(find(
                "index::tree_bin::compute_tree_index",
            )),
            setup: std::mem::transmute::<*mut c_void, Setup>(find("nuka_setup")),
            batch: std::mem::transmute::<*mut c_void, Batch>(find("nuka_batch")),
        }
    }
}

/// Record and arena.
#[derive(Clone)]
struct Heap {
    record: Vec<u64>,
    words: Vec<u64>,
}

impl Version {
    fn fresh(&self) -> Heap {
        let mut heap = Heap {
            record: vec![0; 72],
            words: vec![0; WORDS],
        };
        let (r, w, mut out) = (&mut heap.record, &mut heap.words, [0; 2]);
        assert_eq!(
            (self.setup)(
                r.as_mut_ptr(),
                72,
                w.as_mut_ptr(),
                WORDS as u64,
                out.as_mut_ptr(),
                2
            ),
            0
        );
        heap
    }

    /// Three words a call in, two words an answer out.
    fn run(&self, heap: &mut Heap, calls: &[u64], answers: &mut [u64]) {
        let (r, w, mut out) = (&mut heap.record, &mut heap.words, [0; 2]);
        let (lists, room) = ((calls.as_ptr(), calls.len() as u64), answers.len() as u64);
        let told = (self.batch)(
            r.as_mut_ptr(),
            72,
            w.as_mut_ptr(),
            WORDS as u64,
            out.as_mut_ptr(),
            2,
            lists.0,
            lists.1,
            answers.as_mut_ptr(),
            room,
        );
        assert_eq!(told, 0);
    }
}

/// The rounds' nanoseconds, sorted, before and after.
struct Figure(Vec<f64>, Vec<f64>);

impl Figure {
    /// Rounds of both in turn, each told its number and given the version. One copy of the loop serves both, so that its place in
    /// memory does too.
    fn of(rounds: usize, mut one: impl FnMut(usize, usize) -> f64) -> Figure {
        let mut sides = [Vec::new(), Vec::new()];
        for round in 0..2 * rounds {
            let ns = one(round / 2, round % 2);
            sides[round % 2].push(ns);
        }
        sides
            .iter_mut()
            .for_each(|side| side.sort_by(f64::total_cmp));
        let [before, after] = sides;
        Figure(before, after)
    }

    /// What is left of best and middle without those of another, for each of so many.
    fn less(&self, other: &Figure, many: usize) -> Figure {
        let left = |x: &[f64], y: &[f64]| {
            x.iter()
                .zip(y)
                .map(|(x, y)| (x - y) / many as f64)
                .collect()
        };
        Figure(left(&self.0, &other.0), left(&self.1, &other.1))
    }

    fn say(&self, what: &str) {
        let middle = |v: &[f64]| v[v.len() / 2];
        let (b, a) = (&self.0, &self.1);
        println!(
            "| {what} | {:.2}, {:.2} | {:.2}, {:.2} |",
            b[0],
            middle(b),
            a[0],
            middle(a)
        );
    }
}

/// Nanoseconds a call, each call waiting for the one before it, or none.
#[inline(never)]
fn indexes(index: Index, sizes: &[u64], wait: bool) -> f64 {
    // the sizes are near before the clock starts
    std::hint::black_box(sizes.iter().fold(0u64, |sum, size| sum.wrapping_add(*size)));
    let (mut sum, mut last) = (0u32, 0);
    let start = Instant::now();
    for size in sizes {
        // an index is below 32
        let size = if wait {
            size + u64::from(last >> 5)
        } else {
            *size
        };
        last = index(size);
        sum = sum.wrapping_add(last);
    }
    std::hint::black_box(sum);
    start.elapsed().as_nanos() as f64 / sizes.len() as f64
}

extern "C" fn nothing(size: u64) -> u32 {
    std::hint::black_box(size) as u32 & 31
}

fn agree(versions: &[Version; 2]) {
    let edges = (0..64).flat_map(|k| [(1u64 << k) - 1, 1 << k, (1 << k) + 1, 3 << k >> 1]);
    for size in (0..1 << 25).chain(edges).chain([u64::MAX]) {
        assert_eq!(
            (versions[0].index)(size),
            (versions[1].index)(size),
            "size {size}"
        );
    }
    println!("the two agree on every size below 2^25, about every power of two and at 2^64 - 1\n");
}

fn the_index(versions: &[Version; 2]) {
    let mut rng = Rng::new(1);
    let mut draw =
        |size: fn(&mut Rng) -> u64| -> Vec<u64> { (0..DRAWN).map(|_| size(&mut rng)).collect() };
    let one = draw(|_| 1024);
    // 256 to 63,488, each of 16 bins as often
    let arena = draw(|rng| (256 + 16 * rng.below(16)) << rng.below(8));
    // each number of leading zeros as often: three in four are below 256 or above 16,777,215
    let any = draw(|rng| (rng.draw() << 16 | rng.below(65536)) >> rng.below(64));
    // other sizes each round, so that no branch is known from the round before
    let some = |sizes: &'_ [u64], round: usize| -> std::ops::Range<usize> {
        let from = round * SIZES % sizes.len();
        from..from + SIZES
    };
    for (name, sizes) in [
        ("one size", &one),
        ("sizes of an arena", &arena),
        ("any size", &any),
    ] {
        for (how, wait) in [
            ("one after the other", false),
            ("each waiting for the last", true),
        ] {
            Figure::of(ROUNDS, |round, v| {
                indexes(versions[v].index, &sizes[some(sizes, round)], wait)
            })
            .say(&format!("index, {name}, {how}"));
        }
    }
    Figure::of(ROUNDS, |round, _| {
        indexes(
            std::hint::black_box(nothing),
            &any[some(&any, round)],
            false,
        )
    })
    .say("a call that does nothing, for scale");
}

/// Large blocks with small ones between them, so that a free merges nothing and goes into a tree; the large ones in any order.
fn comb(version: &Version, rng: &mut Rng) -> (Heap, Vec<u64>) {
    let mut heap = version.fresh();
    let mut large = Vec::new();
    let mut answers = [0; 4];
    loop {
        let size = 256 + 8 * rng.below(128);
        version.run(&mut heap, &[0, size, 0, 0, 24, 0], &mut answers);
        if answers[0] != 0 || answers[2] != 0 {
            break;
        }
        large.push(answers[1]);
    }
    for i in (1..large.len()).rev() {
        large.swap(i, rng.below(i as u64 + 1) as usize);
    }
    let calls = large.iter().flat_map(|at| [1, *at, 0]).collect();
    (heap, calls)
}

fn a_free(versions: &[Version; 2]) {
    let mut rng = Rng::new(2);
    let (start, frees) = comb(&versions[0], &mut rng);
    let many = frees.len() / 3;
    let mut answers = vec![0; 2 * many];
    let mut heap = start.clone();
    let mut timed = |version: &Version, calls: &[u64]| {
        heap.record.copy_from_slice(&start.record);
        heap.words.copy_from_slice(&start.words);
        let clock = Instant::now();
        version.run(&mut heap, calls, &mut answers);
        clock.elapsed().as_nanos() as f64
    };
    // with and without the frees by turns
    let mut nones = [Vec::new(), Vec::new()];
    let all = Figure::of(5 * ROUNDS, |_, v| {
        nones[v].push(timed(&versions[v], &[]));
        timed(&versions[v], &frees)
    });
    let none = Figure::of(nones[0].len(), |round, v| nones[v][round]);
    assert!(answers.iter().all(|word| *word == 0), "each free is done");
    all.less(&none, many).say(&format!(
        "a free into a tree ({many} in one batch, less a batch of none)"
    ));
}

/// malloc and free of 256 to 4,096 bytes, in one long list.
fn large_calls(versions: &[Version; 2]) {
    let mut rng = Rng::new(3);
    let (mut heap, mut live, mut calls) = (versions[0].fresh(), Vec::new(), Vec::new());
    let mut full = false;
    while calls.len() < 3 * CALLS {
        let take = live.is_empty() || (!full && rng.chance(55));
        let call = match take {
            true => [0, 256 + rng.below(3841), 0],
            false => [
                1,
                live.swap_remove(rng.below(live.len() as u64) as usize),
                0,
            ],
        };
        let mut answer = [0; 2];
        versions[0].run(&mut heap, &call, &mut answer);
        if take && answer[0] == 0 {
            live.push(answer[1]);
        }
        full = answer[0] == 6 || (full && rng.chance(80));
        calls.extend(call);
    }
    let start = versions[0].fresh();
    let mut answers = [vec![0; 2 * CALLS], vec![0; 2 * CALLS]];
    let figure = Figure::of(301, |_, v| {
        let mut heap = start.clone();
        let clock = Instant::now();
        versions[v].run(&mut heap, &calls, &mut answers[v]);
        clock.elapsed().as_nanos() as f64 / CALLS as f64
    });
    assert_eq!(answers[0], answers[1]);
    figure.say("malloc and free of 256 to 4,096 bytes, a call, in one batch of 20,000");
}

fn main() {
    let paths: Vec<String> = std::env::args().skip(1).collect();
    let [before, after] = &paths[..] else {
        eprintln!("usage: index_speed BEFORE.so AFTER.so (index_speed.sh makes them)");
        std::process::exit(2);
    };
    let versions = [load(before), load(after)];
    agree(&versions);
    println!(
        "nanoseconds, best and middle of {ROUNDS} rounds (the last line: 301), {}",
        std::env::consts::ARCH
    );
    println!("| what | before | after |");
    println!("|---|---|---|");
    the_index(&versions);
    a_free(&versions);
    large_calls(&versions);
}
