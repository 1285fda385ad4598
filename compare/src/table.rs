//! Writes histories with the crate's answers as antt modules: each a table and its proof by computation.
use crate::history::{Call, Setting};
use crate::oracle::{Chunk, Tree};
use crate::play::{history, refusal, Counts, Done, History, Shot, Step};
use std::fmt::Write;
use std::path::PathBuf;
use std::{env, fs};

/// The module that says what a step means; the names that it brings in are the rules' own.
const STEPS: &str = include_str!("steps.txt");
/// How each table's module begins.
const HEADER: &str = include_str!("header.txt");
/// The whole heap is looked at after each so many calls, and at the end.
const LOOK_EVERY: usize = 8;
/// Words of the largest arena.
const LARGEST: usize = 4096;

/// `rules_table [FOLDER [FIRST_SEED [HISTORIES [PER_MODULE]]]]`
pub fn run() {
    let words: Vec<String> = env::args().skip(1).collect();
    let folder = PathBuf::from(words.first().map_or("target/tables", String::as_str));
    let number = |i: usize, other: u64| words.get(i).map_or(other, |w| w.parse().unwrap());
    let (first, histories, per_module) = (number(1, 1), number(2, 60), number(3, 20));
    fs::create_dir_all(&folder).unwrap();
    fs::write(folder.join("CrateSteps.antt"), STEPS).unwrap();
    println!("pub mod CrateSteps");
    let seeds: Vec<u64> = (first..first + histories).collect();
    let mut counts = Counts::default();
    for (i, part) in seeds.chunks(per_module as usize).enumerate() {
        let name = format!("CrateTable{i:02}");
        let text = module(part, &mut counts);
        fs::write(folder.join(format!("{name}.antt")), text).unwrap();
        println!("pub mod {name}");
    }
    println!("{counts}");
}

/// One table, one statement.
fn module(seeds: &[u64], counts: &mut Counts) -> String {
    let mut text = HEADER.to_string();
    for seed in seeds {
        let history = history(Setting::of(*seed, LARGEST));
        counts.add(&history);
        text.push_str(&rows(&history));
    }
    let table = list(seeds.iter().map(|seed| format!("h{seed}")));
    writeln!(text, "\npub agrees : all {table} ≡ true").unwrap();
    text.push_str("unfolding needWords need roundUp treeIndex reach minSize bit huge\n");
    text.push_str("agrees = refl\n");
    text
}

fn rows(history: &History) -> String {
    let (seed, words) = (history.seed, history.words);
    let mut text = format!("\nabbrev h{seed} : History\nh{seed} =\n    on {words} (\n");
    for (i, step) in history.steps.iter().enumerate() {
        let look = i + 1 == history.steps.len() || (i + 1) % LOOK_EVERY == 0;
        let before = if i == 0 { "" } else { "∷ " };
        let steps = steps_of(words as u64 * 8, step, look);
        writeln!(text, "    {before}{steps}").unwrap();
    }
    text.push_str("    ∷ [])\n");
    text
}

fn steps_of(arena_bytes: u64, step: &Step, look: bool) -> String {
    let mut all = vec![call_of(arena_bytes, step.done)];
    let (top, size) = step.after.top;
    all.push(format!("top-is {top} {size}"));
    all.push(match step.after.dv {
        None => "no-dv".to_string(),
        Some((dv, size)) => format!("dv-is {dv} {size}"),
    });
    if look {
        all.extend(looks(&step.after));
    }
    all.join(" ∷ ")
}

fn call_of(arena_bytes: u64, done: Done) -> String {
    let no = refusal(arena_bytes, done);
    match (done.call, done.answer) {
        (Call::Malloc(n), Some(to)) => format!("take {n} {to}"),
        (Call::Malloc(n), None) => format!("no-take {n} {no}"),
        (Call::Free(off), _) => format!("give {off}"),
        (Call::Realloc(off, n), Some(to)) => format!("resize {off} {n} {to} {}", done.copied),
        (Call::Realloc(off, n), None) => format!("no-resize {off} {n} {no}"),
        (Call::Memalign(a, n), Some(to)) => format!("align {a} {n} {to}"),
        (Call::Memalign(a, n), None) => format!("no-align {a} {n} {no}"),
    }
}

/// The whole heap: chunks, maps, and each bin that holds something.
fn looks(shot: &Shot) -> Vec<String> {
    let kind = |used| if used { "used" } else { "free" };
    let chunk = |c: &Chunk| format!("{} {}", kind(c.used), c.size);
    let chunks = list(shot.chunks.iter().map(chunk));
    let mut all = vec![format!("chunks-are {chunks}")];
    all.push(format!("maps-are {} {}", shot.maps.0, shot.maps.1));
    for (bin, places) in &shot.small {
        all.push(format!("small-is {bin} {}", numbers(places)));
    }
    for (bin, tree) in &shot.trees {
        all.push(format!("tree-is {bin} {}", node(Some(tree))));
    }
    all
}

fn list(items: impl Iterator<Item = String>) -> String {
    let all: Vec<String> = items.chain(["[]".to_string()]).collect();
    match all.len() {
        1 => all.concat(),
        _ => format!("({})", all.join(" ∷ ")),
    }
}

fn numbers(places: &[u64]) -> String {
    list(places.iter().map(u64::to_string))
}

fn node(tree: Option<&Tree>) -> String {
    let Some(tree) = tree else {
        return "leaf".to_string();
    };
    let (ring, [left, right]) = (numbers(&tree.ring), &tree.child);
    let (left, right) = (node(left.as_deref()), node(right.as_deref()));
    format!("(node {} {ring} {} {left} {right})", tree.place, tree.size)
}
