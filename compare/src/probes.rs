//! Steps beside the makers' calls: owners' writes, calls that must be refused, looks at blocks.
use crate::history::Rng;
use crate::pair::Pair;
use crate::steps::{word, Ask, Lent, Step};

/// What the owner of a block that was just granted does: fills it, writes a few words, or nothing.
pub fn owner(rng: &mut Rng, pair: &Pair, block: u64) -> Vec<Step> {
    let words = pair.block_words(block);
    match rng.below(10) {
        0..=5 => vec![Step::Fill(block, rng.draw())],
        6..=7 => (0..1 + rng.below(3))
            .map(|_| {
                let k = words.start + rng.below(words.end - words.start);
                Step::Write(k, word(rng.draw(), k, pair.heap.bytes()))
            })
            .collect(),
        _ => Vec::new(),
    }
}

/// A call that is refused with 1, 2, 3, 4 or 5, or that asks for a block's usable bytes.
pub fn probe(rng: &mut Rng, pair: &Pair) -> Step {
    let bytes = pair.heap.bytes();
    let dead = dead(rng, pair);
    let any = rng.below(bytes + 1);
    let much = bytes + rng.pick(&[1, 2, 8, 1 << 20, 1 << 63, u64::MAX - 65_536]);
    match rng.below(12) {
        0..=1 => Step::Ask(Ask::Free(dead)),
        2 => Step::Ask(Ask::Realloc(dead, any)),
        3 => Step::Ask(Ask::Usable(dead)),
        4 => Step::Ask(Ask::Realloc(dead, much)),
        5 => Step::Ask(Ask::Memalign(alignment(rng), rng.pick(&[0, 24, any, much]))),
        6 => Step::Ask(rng.pick(&[Ask::Malloc(much), Ask::Memalign(64, much)])),
        7..=9 => match pair.live_from(any) {
            Some(block) => Step::Ask(Ask::Usable(block)),
            None => Step::Ask(Ask::Usable(dead)),
        },
        10 => {
            let block = pair.live_from(any).unwrap_or(dead);
            Step::AskLent(lent(rng, bytes as usize / 8), ask(rng, block, bytes))
        }
        _ => {
            let lent = lent(rng, bytes as usize / 8);
            rng.pick(&[
                Step::SetUp(lent),
                Step::Sound(lent),
                Step::RebuildLent(lent),
            ])
        }
    }
}

/// The rebuild, now and then with a start that set-up refuses.
pub fn rebuild(rng: &mut Rng) -> Step {
    let other = rng.pick(&[1, 8, 16, 4080, 4096, 1 << 32, u64::MAX]);
    Step::Rebuild(if rng.chance(5) { other } else { 0 })
}

/// Any call, of a block.
pub fn ask(rng: &mut Rng, block: u64, bytes: u64) -> Ask {
    let n = rng.pick(&[0, 24, 100, bytes / 3, bytes, bytes + 1]);
    match rng.below(5) {
        0 => Ask::Malloc(n),
        1 => Ask::Free(block),
        2 => Ask::Realloc(block, n),
        3 => Ask::Memalign(rng.pick(&[32, 64, 4096, 48]), n),
        _ => Ask::Usable(block),
    }
}

/// An offset at which no live block starts: within blocks and free chunks, odd ones, the ends, far outside.
fn dead(rng: &mut Rng, pair: &Pair) -> u64 {
    let bytes = pair.heap.bytes();
    for _ in 0..8 {
        let near = pair.live_from(rng.below(bytes)).unwrap_or(16);
        let offset = match rng.below(8) {
            0..=2 => 16 * rng.below(bytes / 16 + 2),
            3 => near + rng.pick(&[1, 8, 15]),
            4 => near.wrapping_sub(rng.pick(&[1, 8, 16, 32])),
            5 => near + (rng.pick(&[1, 1 << 13, 1 << 45]) << 16),
            6 => rng.pick(&[0, 8, bytes, bytes - 64, bytes - 80, u64::MAX, u64::MAX - 15]),
            _ => rng.draw() << rng.below(17),
        };
        if !pair.is_live(offset) {
            return offset;
        }
    }
    0
}

fn alignment(rng: &mut Rng) -> u64 {
    let exponent = rng.below(64);
    match rng.below(3) {
        0 => rng.pick(&[0, 1, 8, 16, 31, 33, 48, 96, 4095, 4097, 8192, u64::MAX]),
        1 if !(5..=12).contains(&exponent) => 1 << exponent,
        1 => (1 << exponent) + 1,
        _ => 3 * (16 + rng.below(2048)),
    }
}

fn lent(rng: &mut Rng, words: usize) -> Lent {
    match rng.below(8) {
        0 => Lent::Record(rng.pick(&[0, 1, 8, 71, 73, 144])),
        1 => Lent::Out(rng.pick(&[0, 1])),
        2..=4 => Lent::Words(rng.pick(&[0, 1, 14, 15, 17, 8191, 8193, 8194, words - 1, words + 1])),
        _ => Lent::Words(rng.pick(&[words - 2, words + 2, 16, 128, 8192])),
    }
}
