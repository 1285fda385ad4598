//! Document 01's "A morning on 128 words": every case that the crate can answer, beside the document's numbers.
use crate::oracle::Oracle;
use crate::play::block_words;

const M: &str = "malloc 24 = 16; malloc 25 = 48; malloc 232 = 96; malloc 233 = 336; top = 576 368";
const D: &str = "free 96 = done; malloc 24 = 96; dv = 112 208";

/// Words of the arena, then questions with document 01's answers. `M` and `D` stand for its states.
const CASES: [(usize, &str); 18] = [
    (128, "top = 0 944; dv = none; bins = empty; word 1 = 945; word 119 = 80; untouched = 126"),
    (128, "M"),
    (128, "M; free 16 = done; malloc 1 = 16"),
    (128, "M; D"),
    (128, "M; D; malloc 100 = 128; malloc 88 = 240; dv = none"),
    (128, "M; D; realloc 96 232 = 96; dv = none"),
    (128, "M; D; mark 96 = done; realloc 96 233 = 592; marked 592 = 3; dv = 80 240; top = 832 112"),
    (128, "malloc 920 = 16; top = 928 16"),
    (128, "malloc 921 = no room"),
    (128, "malloc 24 = 16; realloc 16 920 = 16"),
    (128, "malloc 24 = 16; realloc 16 921 = no room"),
    (128, "malloc 24 = 16; realloc 16 920 = 16; realloc 16 921 = no room"),
    (128, "memalign 64 24 = 64; chunk 0 = free 48; top = 80 864"),
    (128, "memalign 32 24 = 64; chunk 48 = used 48; top = 96 848"),
    (128, "malloc 72 = 16; memalign 64 24 = 192; top = 208 736"),
    (128, "M; free 336 = done; free 16 = done; free 96 = done; free 48 = done; top = 0 944; dv = none; bins = empty"),
    (16, "malloc 24 = 16; malloc 0 = no room"),
    (16, "malloc 25 = no room"),
];

/// What a marked word holds; no block of a morning has it otherwise.
const MARK: u64 = 0x6d61_726b;
/// What the arena's words hold before set-up.
const FILL: u64 = 0x6669_6c6c;

pub fn run() {
    let answers = CASES.map(|(words, case)| agrees(words, case));
    let differ = answers.iter().filter(|same| !**same).count();
    println!("left out, as the crate has no answer: free 16 twice (5); 14, 17 and 8,194 words (1)");
    println!("{} cases, {differ} differ", CASES.len());
    if differ > 0 {
        std::process::exit(1);
    }
}

/// Asks the crate a case's questions on a fresh arena and prints its answers.
fn agrees(words: usize, case: &str) -> bool {
    let mut heap = Oracle::filled(words, |_| FILL);
    let mut all = true;
    println!("{words} words: {case}");
    for line in case.replace('M', M).replace('D', D).split("; ") {
        let (question, expected) = line.split_once(" = ").unwrap();
        let answer = ask(&mut heap, question);
        if answer == expected {
            println!("    {question}: {answer}");
        } else {
            println!("    {question}: {answer}, but document 01 says {expected}");
            all = false;
        }
    }
    all
}

fn ask(heap: &mut Oracle, question: &str) -> String {
    let mut parts = question.split(' ');
    let kind = parts.next().unwrap();
    let n: Vec<u64> = parts.map(|p| p.parse().unwrap()).collect();
    let done = || "done".to_string();
    match kind {
        "malloc" => place(heap.malloc(n[0])),
        "realloc" => place(heap.realloc(n[0], n[1])),
        "memalign" => place(heap.memalign(n[0], n[1])),
        "free" => {
            heap.free(n[0]);
            done()
        }
        "mark" => {
            block_words(heap, n[0]).for_each(|k| heap.set_word(k, MARK));
            done()
        }
        "marked" => count(heap, block_words(heap, n[0]), MARK),
        "untouched" => count(heap, 0..heap.bytes() / 8, FILL),
        "top" => pair(heap.top()),
        "dv" => heap.dv().map_or("none".to_string(), pair),
        "chunk" => chunk(heap, n[0]),
        "word" => heap.word(n[0]).to_string(),
        "bins" => bins(heap),
        _ => panic!("no such question: {question}"),
    }
}

fn place(answer: Option<u64>) -> String {
    answer.map_or("no room".to_string(), |p| p.to_string())
}

fn pair((place, size): (u64, u64)) -> String {
    format!("{place} {size}")
}

/// How many of these words hold a value.
fn count(heap: &Oracle, words: std::ops::Range<u64>, value: u64) -> String {
    words.filter(|k| heap.word(*k) == value).count().to_string()
}

fn chunk(heap: &Oracle, offset: u64) -> String {
    let all = heap.chunks();
    let Some(c) = all.iter().find(|c| c.offset == offset) else {
        return "none".to_string();
    };
    format!("{} {}", if c.used { "used" } else { "free" }, c.size)
}

fn bins(heap: &Oracle) -> String {
    let empty = heap.smallmap() == 0 && heap.treemap() == 0;
    if empty { "empty" } else { "filled" }.to_string()
}
