//! Sound states from a seed, most of which no history of calls reaches: any tiling, any order in lists and rings, any
//! choice of a tree's inner nodes, any free chunk as `dv`.
use crate::history::Rng;
use crate::library::{fresh_record, Ours};
use crate::oracle::{NONE, ROOT};
use crate::steps::word;

pub fn state(seed: u64, words: usize) -> Ours {
    let mut rng = Rng::new(seed ^ 0x6d61_6465);
    let bytes = words as u64 * 8;
    let mut heap = Ours {
        record: fresh_record(bytes),
        words: (0..words).map(|k| word(seed, k as u64, bytes)).collect(),
    };
    let mut free = tile(&mut rng, &mut heap, bytes);
    shuffle(&mut rng, &mut free);
    if rng.chance(40) {
        if let Some((place, size)) = free.pop() {
            (heap.record[2], heap.record[3]) = (place, size);
        }
    }
    small_bins(&mut heap, &free);
    for bin in 0..32 {
        let members: Vec<_> = free.iter().copied().filter(|c| index(c.1) == bin).collect();
        if !members.is_empty() {
            heap.record[1] |= 1 << bin;
            heap.record[40 + bin] = tree(&mut rng, &mut heap, bin as u64, members, ROOT, 0);
        }
    }
    heap
}

/// The chunks of a state in words.
pub fn told(state: &Ours) -> String {
    let (top, topsize) = (state.record[4], state.record[5]);
    let mut text = String::new();
    let mut at = 0;
    while at < top {
        let head = state.words[at as usize / 8 + 1];
        let kind = match head & 2 {
            _ if at == state.record[2] => "spare",
            0 => "free",
            _ => "used",
        };
        text += &format!("{at} {kind} {}, ", head & !7);
        at += head & !7;
    }
    text + &format!("{top} top {topsize}")
}

fn put(heap: &mut Ours, chunk: u64, k: u64, value: u64) {
    heap.words[(chunk / 8 + k) as usize] = value;
}

/// Chunks from 0 on, then the top; gives the free ones with their sizes.
fn tile(rng: &mut Rng, heap: &mut Ours, bytes: u64) -> Vec<(u64, u64)> {
    let end = bytes - 80;
    let sizes = palette(rng, bytes);
    let (few, used) = (rng.chance(20), 30 + rng.below(50));
    let mut chunks: Vec<(u64, u64, bool)> = Vec::new();
    let mut at = 0;
    loop {
        let size = rng.pick(&sizes);
        if at + size + 16 > end || (few && rng.chance(20)) {
            break;
        }
        let after_free = chunks.last().is_some_and(|c| !c.2);
        chunks.push((at, size, after_free || rng.chance(used)));
        at += size;
    }
    // the top counts as free, so no free chunk comes before it
    while chunks.last().is_some_and(|c| !c.2) {
        at -= chunks.pop().map_or(0, |c| c.1);
    }
    let mut before_used = 1;
    for (place, size, used) in &chunks {
        put(heap, *place, 1, size + before_used + 2 * u64::from(*used));
        if !used {
            put(heap, place + size, 0, *size);
        }
        before_used = u64::from(*used);
    }
    put(heap, at, 1, end - at + 1);
    put(heap, end, 1, 80);
    (heap.record[4], heap.record[5]) = (at, end - at);
    let free = chunks.into_iter().filter(|c| !c.2);
    free.map(|c| (c.0, c.1)).collect()
}

/// A few sizes, so that lists, rings and trees of one bin come up.
fn palette(rng: &mut Rng, bytes: u64) -> Vec<u64> {
    let low = 256 << rng.below((bytes / 1024).max(1).ilog2() as u64 + 1).min(5);
    let kinds = 1 + rng.below(6);
    let mut sizes: Vec<u64> = (0..kinds)
        .map(|_| match rng.below(3) {
            0 => 32 + 16 * rng.below(14),
            _ => low + 16 * rng.below(low / 16),
        })
        .collect();
    sizes.push(32);
    if rng.chance(30) {
        sizes.extend((0..16).map(|k| low + low / 32 * k / 16 * 16));
    }
    sizes
}

fn small_bins(heap: &mut Ours, free: &[(u64, u64)]) {
    for (place, size) in free.iter().filter(|c| c.1 < 256) {
        let bin = (size / 8) as usize;
        let older = heap.record[8 + bin];
        put(heap, *place, 2, older);
        put(heap, *place, 3, NONE);
        if older != NONE {
            put(heap, older, 3, *place);
        }
        heap.record[0] |= 1 << bin;
        heap.record[8 + bin] = *place;
    }
}

fn index(size: u64) -> usize {
    let doubling = (size / 256).max(1).ilog2() as usize;
    if size < 256 {
        return usize::MAX;
    }
    2 * doubling + usize::from(size >> (doubling + 7) & 1 == 1)
}

/// Any size stands at the root; the others go left and right by their bits. Gives the root's place.
fn tree(
    rng: &mut Rng,
    heap: &mut Ours,
    bin: u64,
    members: Vec<(u64, u64)>,
    parent: u64,
    depth: u64,
) -> u64 {
    let size = rng.pick(&members).1;
    let (ring, others): (Vec<_>, Vec<_>) = members.into_iter().partition(|c| c.1 == size);
    let bit = bin / 2 + 6 - depth;
    let (right, left): (Vec<_>, Vec<_>) = others.into_iter().partition(|c| c.1 >> bit & 1 == 1);
    for (i, (place, _)) in ring.iter().enumerate() {
        let next = ring[(i + 1) % ring.len()].0;
        put(heap, *place, 3, next);
        put(heap, next, 2, *place);
        (4..=6).for_each(|k| put(heap, *place, k, NONE));
        put(heap, *place, 7, bin);
    }
    let node = ring[0].0;
    put(heap, node, 6, parent);
    for (k, side) in [(4, left), (5, right)] {
        if !side.is_empty() {
            let child = tree(rng, heap, bin, side, node, depth + 1);
            put(heap, node, k, child);
        }
    }
    node
}

fn shuffle<T>(rng: &mut Rng, all: &mut [T]) {
    for i in (1..all.len()).rev() {
        all.swap(i, rng.below(i as u64 + 1) as usize);
    }
}
