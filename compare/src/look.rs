//! The whole heap, ours beside the crate's: the record, every head, foot and link, and all other words too.
use crate::library::Ours;
use crate::oracle::Oracle;

/// What differs first, in words.
pub fn differs(heap: &Oracle, ours: &Ours, live: &[bool]) -> Result<(), String> {
    record(heap, ours)?;
    every_word(heap, ours)?;
    governed(heap, ours, live)
}

const NAMES: [&str; 8] = [
    "smallmap", "treemap", "dv", "dvsize", "top", "topsize", "length", "eighth",
];

fn record(heap: &Oracle, ours: &Ours) -> Result<(), String> {
    let theirs = heap.image();
    let Some(at) = (0..theirs.len()).find(|i| theirs[*i] != ours.record[*i]) else {
        return Ok(());
    };
    let name = match at {
        0..=7 => NAMES[at].to_string(),
        8..=39 => format!("small bin {}", at - 8),
        _ => format!("tree root {}", at - 40),
    };
    let (a, b) = (ours.record[at], theirs[at]);
    Err(format!("the record's {name}: ours {a}, the crate's {b}"))
}

/// A word is the crate's, or the crate's pointer as an offset, or the number of a bin whose upper half the crate
/// doesn't write. This covers owners' words and those that no rule governs.
fn every_word(heap: &Oracle, ours: &Ours) -> Result<(), String> {
    let theirs = heap.words();
    // most stretches are equal, and comparing whole ones is quick
    for start in (0..theirs.len()).step_by(32) {
        let part = start..(start + 32).min(theirs.len());
        if theirs[part.clone()] == ours.words[part.clone()] {
            continue;
        }
        for k in part {
            let (a, b) = (ours.words[k], theirs[k]);
            let index = a < 32 && b & 0xffff_ffff == a;
            let link = heap.may_be_link(b as usize);
            if a != b && !index && link != Some(a) {
                return exactly(k as u64, a, link.unwrap_or(b));
            }
        }
    }
    Ok(())
}

/// Heads, feet, links and which chunks are live blocks, exactly.
fn governed(heap: &Oracle, ours: &Ours, live: &[bool]) -> Result<(), String> {
    let dv = ours.record[2];
    let top = ours.record[4];
    let same = |k: u64| exactly(k, ours.words[k as usize], heap.word(k));
    let mut at = 0;
    while at < top {
        let head = heap.chunk_word(at, 1);
        let (size, used) = (head & !7, head & 2 != 0);
        same(at / 8 + 1)?;
        if live[at as usize / 16 + 1] != used {
            return Err(format!(
                "the chunk at {at} and the answers tell another block"
            ));
        }
        if !used {
            same((at + size) / 8)?;
            if at != dv {
                links(heap, ours, at, size)?;
            }
        }
        at += size;
    }
    same(top / 8 + 1)?;
    same(ours.words.len() as u64 - 9)
}

fn links(heap: &Oracle, ours: &Ours, at: u64, size: u64) -> Result<(), String> {
    let last = if size < 256 { 3 } else { 6 };
    for k in 2..=last {
        let word = at / 8 + k;
        exactly(word, ours.words[word as usize], heap.link(at, k))?;
    }
    if size >= 256 {
        let word = at / 8 + 7;
        let index = heap.word(word) & 0xffff_ffff;
        exactly(word, ours.words[word as usize], index)?;
    }
    Ok(())
}

fn exactly(k: u64, ours: u64, theirs: u64) -> Result<(), String> {
    if ours == theirs {
        return Ok(());
    }
    Err(format!("word {k}: ours {ours}, the crate's {theirs}"))
}
