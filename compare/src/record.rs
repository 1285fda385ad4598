//! Records the crate's answers on many histories as lines of eight plain decimal numbers.
//! `HEADER` says what they mean; it stands at the top of the written file too.
use crate::history::{Call, Setting};
use crate::oracle::Oracle;
use crate::play::{block_words, drive, refusal, Counts, Done};
use std::fmt::Write;
use std::{env, fs};

const HEADER: &str = "\
# Answers of the crate dlmalloc 0.2.14, written by compare/src/bin/record.rs. Lines with # say nothing.
# Each other line has eight numbers: kind a b refusal offset topsize dv dvsize. The last three are after the call; 0 0 where there is no dv.
# kind 0: a fresh arena of a words; a new history begins      kind 1: malloc of a bytes
# kind 2: free at offset a                                    kind 3: realloc at offset a to b bytes
# kind 4: memalign at alignment a of b bytes                  kind 5: a look at the heap, no call
# refusal: 0 granted or done, 4 more bytes than the arena has, 6 no room. offset: of the grant, else 0.
# Call number c of a history (from 1) marks the words that it grants: word k of the block becomes c * 8192 + k; a realloc keeps the words that it had.
# kind 5: a is the number of chunks below the top; b sums the heap up; offset sums the blocks' words up, chunk by chunk.
# A sum goes over numbers w, from 0: sum = (sum * 31 + w % 1000003) % 1000003.
# b: each chunk's head; if it is free and not dv its words 2 and 3, from 256 bytes on words 2 to 7; if it is free its foot. Then the top's head, then the foot word.
# In these words a place is an offset, none 2^64-1, a root's parent 2^64-2, and word 7 the bin's number.
";

const LARGEST: usize = 8192;
const LOOK_EVERY: u64 = 10;

/// What the committed file holds.
pub const HISTORIES: u64 = 140;

/// `record [FILE [FIRST_SEED [HISTORIES]]]`
pub fn run() {
    let words: Vec<String> = env::args().skip(1).collect();
    let file = words
        .first()
        .map_or("../crates/recorded/stdin", String::as_str);
    let number = |i: usize, other: u64| words.get(i).map_or(other, |w| w.parse().unwrap());
    let (text, counts) = recorded(number(1, 1), number(2, HISTORIES));
    fs::write(file, &text).unwrap();
    println!("{counts}");
    println!(
        "{file}: {} lines, {} bytes",
        text.lines().count(),
        text.len()
    );
}

/// The file's text for so many seeds.
pub fn recorded(first: u64, histories: u64) -> (String, Counts) {
    let mut text = HEADER.to_string();
    let mut counts = Counts::default();
    for seed in first..first + histories {
        one(Setting::of(seed, LARGEST), &mut text, &mut counts);
    }
    (text, counts)
}

fn one(setting: Setting, text: &mut String, counts: &mut Counts) {
    let mut calls = 0;
    counts.histories += 1;
    let fresh = Oracle::new(setting.words);
    line(text, [0, setting.words as u64, 0, 0, 0], &fresh);
    drive(setting, |heap, done| {
        calls += 1;
        counts.add_call(done);
        line(text, numbers(heap, done), heap);
        if calls == setting.calls || calls.is_multiple_of(LOOK_EVERY) {
            let chunks = heap.chunks().len() as u64;
            line(text, [5, chunks, heap_sum(heap), 0, owned_sum(heap)], heap);
        }
    });
}

fn line(text: &mut String, first: [u64; 5], heap: &Oracle) {
    let (dv, dvsize) = heap.dv().unwrap_or((0, 0));
    let [kind, a, b, refusal, offset] = first;
    let topsize = heap.top().1;
    writeln!(
        text,
        "{kind} {a} {b} {refusal} {offset} {topsize} {dv} {dvsize}"
    )
    .unwrap();
}

fn numbers(heap: &Oracle, done: Done) -> [u64; 5] {
    let (refusal, offset) = (refusal(heap.bytes(), done), done.answer.unwrap_or(0));
    match done.call {
        Call::Malloc(n) => [1, n, 0, refusal, offset],
        Call::Free(off) => [2, off, 0, 0, 0],
        Call::Realloc(off, n) => [3, off, n, refusal, offset],
        Call::Memalign(a, n) => [4, a, n, refusal, offset],
    }
}

#[derive(Default)]
struct Sum(u64);

impl Sum {
    fn add(&mut self, w: u64) {
        self.0 = (self.0 * 31 + w % 1_000_003) % 1_000_003;
    }
}

/// Heads, feet and links.
fn heap_sum(heap: &Oracle) -> u64 {
    let mut sum = Sum::default();
    let dv = heap.dv().map(|d| d.0);
    for c in heap.chunks() {
        sum.add(heap.chunk_word(c.offset, 1));
        if !c.used && dv != Some(c.offset) {
            let links = if c.size < 256 { 2..4 } else { 2..7 };
            links.for_each(|k| sum.add(heap.link(c.offset, k)));
            if c.size >= 256 {
                // the crate writes only this half
                sum.add(heap.chunk_word(c.offset, 7) & 0xffff_ffff);
            }
        }
        if !c.used {
            sum.add(heap.chunk_word(c.offset + c.size, 0));
        }
    }
    sum.add(heap.chunk_word(heap.top().0, 1));
    sum.add(heap.word(heap.bytes() / 8 - 9));
    sum.0
}

/// The words that owners have.
fn owned_sum(heap: &Oracle) -> u64 {
    let mut sum = Sum::default();
    for c in heap.chunks().iter().filter(|c| c.used) {
        block_words(heap, c.offset + 16).for_each(|k| sum.add(heap.word(k)));
    }
    sum.0
}
