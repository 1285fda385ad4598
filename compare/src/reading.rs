//! Document 01's "Sound", read from its text and written down plainly, without a look at the library's own check.
use crate::oracle::{Chunk, NONE, ROOT};
use std::collections::BTreeMap;

const PINUSE: u64 = 1;
const CINUSE: u64 = 2;
const FLAG4: u64 = 4;

struct Heap<'a> {
    record: &'a [u64],
    words: &'a [u64],
    /// the free chunks but the top that have not yet been found in their place, with their sizes
    unplaced: BTreeMap<u64, u64>,
}

/// Whether a record of 72 words and an arena are sound.
pub fn sound(record: &[u64], words: &[u64]) -> bool {
    let count = words.len();
    let allowed = count.is_multiple_of(2) && (16..=8192).contains(&count);
    if !allowed || record.len() != 72 || record[6] != count as u64 * 8 {
        return false;
    }
    // the record's two maps have 32 bits each; as 72 words it has one more that is 0
    if record[0] >> 32 != 0 || record[1] >> 32 != 0 || record[7] != 0 {
        return false;
    }
    let mut heap = Heap {
        record,
        words,
        unplaced: BTreeMap::new(),
    };
    heap.chunks_ok() && heap.spare_ok() && heap.bins_ok() && heap.unplaced.is_empty()
}

/// What the first two points of "Sound" tell of words alone: the chunks but the top, in address order, and the top.
pub struct Tiling {
    pub chunks: Vec<Chunk>,
    pub top: u64,
    pub topsize: u64,
}

/// The tiling of an arena of an allowed word count. The top is the free chunk that ends 80 bytes before the arena's end.
pub fn tiling(words: &[u64]) -> Option<Tiling> {
    let end = words.len() as u64 * 8 - 80;
    let word = |chunk: u64, k: u64| words[(chunk / 8 + k) as usize];
    let (mut at, mut chunks) = (0, Vec::new());
    // the first chunk has PINUSE, as if a used one came before it
    let mut before = Chunk {
        offset: 0,
        size: 0,
        used: true,
    };
    while at < end {
        let head = word(at, 1);
        let (size, used) = (size_of(head)?, head & CINUSE != 0);
        if size > end - at || (head & PINUSE != 0) != before.used {
            return None;
        }
        if !before.used && (!used || word(at, 0) != before.size) {
            return None;
        }
        if !used && at + size == end {
            let foot_word = words[(end + 8) as usize / 8] == 80;
            return (size >= 16 && foot_word).then_some(Tiling {
                chunks,
                top: at,
                topsize: size,
            });
        }
        if size < 32 {
            return None;
        }
        before = Chunk {
            offset: at,
            size,
            used,
        };
        chunks.push(before);
        at += size;
    }
    None
}

/// The size that a head tells, if it is a multiple of 16 and the bit worth 4 is clear.
fn size_of(head: u64) -> Option<u64> {
    let size = head - head % 8;
    (size.is_multiple_of(16) && head & FLAG4 == 0).then_some(size)
}

impl Heap<'_> {
    fn word(&self, chunk: u64, k: u64) -> u64 {
        self.words[(chunk / 8 + k) as usize]
    }

    /// Tiling, flags, feet, no two free neighbours, the foot word, and the record's top. Collects the free chunks.
    fn chunks_ok(&mut self) -> bool {
        let Some(told) = tiling(self.words) else {
            return false;
        };
        let free = told.chunks.iter().filter(|c| !c.used);
        self.unplaced = free.map(|c| (c.offset, c.size)).collect();
        self.record[4] == told.top && self.record[5] == told.topsize
    }

    /// `dv` is a free chunk with its true size, or there is none and `dvsize` is 0.
    fn spare_ok(&mut self) -> bool {
        let (dv, dvsize) = (self.record[2], self.record[3]);
        if dv == NONE {
            dvsize == 0
        } else {
            self.unplaced.remove(&dv) == Some(dvsize)
        }
    }

    fn bins_ok(&mut self) -> bool {
        (0..32).all(|bin| {
            let (small, root) = (self.record[8 + bin], self.record[40 + bin]);
            let small_bit = self.record[0] >> bin & 1 == 1;
            let tree_bit = self.record[1] >> bin & 1 == 1;
            small_bit == (small != NONE)
                && tree_bit == (root != NONE)
                && self.list_ok(bin as u64, small)
                && (root == NONE || self.tree_ok(bin as u64, root))
        })
    }

    /// A small bin from the newest: word 2 leads to the next older, word 3 to the next newer.
    fn list_ok(&mut self, bin: u64, newest: u64) -> bool {
        let (mut at, mut newer) = (newest, NONE);
        while at != NONE {
            // a chunk that comes twice is not unplaced the second time
            let Some(size) = self.unplaced.remove(&at) else {
                return false;
            };
            if size >= 256 || size / 8 != bin || self.word(at, 3) != newer {
                return false;
            }
            newer = at;
            at = self.word(at, 2);
        }
        true
    }

    fn tree_ok(&mut self, bin: u64, root: u64) -> bool {
        // nodes still to look at: place, parent word, what each bit above must be
        let mut todo = vec![(root, ROOT, Vec::<bool>::new())];
        let mut sizes = Vec::new();
        while let Some((node, parent, path)) = todo.pop() {
            let Some(size) = self.unplaced.remove(&node) else {
                return false;
            };
            if size < 256 || tree_index(size) != bin || sizes.contains(&size) {
                return false;
            }
            sizes.push(size);
            if self.word(node, 6) != parent || self.word(node, 7) != bin {
                return false;
            }
            // the highest bit that sizes of one bin can differ in chooses under the root, and so on down
            let bits = (0..=bin / 2 + 6).rev().map(|b| size >> b & 1 == 1);
            if path.len() as u64 > bin / 2 + 7
                || !path.iter().copied().zip(bits).all(|(a, b)| a == b)
            {
                return false;
            }
            if !self.ring_ok(bin, node, size) {
                return false;
            }
            for (side, k) in [(false, 4), (true, 5)] {
                let child = self.word(node, k);
                if child != NONE {
                    let mut below = path.clone();
                    below.push(side);
                    todo.push((child, node, below));
                }
            }
        }
        true
    }

    /// The others of a node's size: a ring through words 2 and 3, with no parent and no children.
    fn ring_ok(&mut self, bin: u64, node: u64, size: u64) -> bool {
        let mut at = node;
        loop {
            let next = self.word(at, 3);
            if next != node && self.unplaced.remove(&next) != Some(size) {
                return false;
            }
            if self.word(next, 2) != at {
                return false;
            }
            if next == node {
                return true;
            }
            let none = (4..=6).all(|k| self.word(next, k) == NONE);
            if !none || self.word(next, 7) != bin {
                return false;
            }
            at = next;
        }
    }
}

/// 256 → 0, 384 → 1, 512 → 2, 768 → 3: two bins to each doubling, from its start and from its middle.
fn tree_index(size: u64) -> u64 {
    if size >= 256 * 65_536 {
        return 31;
    }
    let (mut bin, mut low) = (0, 256);
    while size >= 2 * low {
        bin += 2;
        low *= 2;
    }
    bin + u64::from(size >= low + low / 2)
}

#[cfg(test)]
mod tests {
    use super::*;
    use crate::library::fresh_record;

    #[test]
    fn document_01s_indices() {
        let cases = [
            (256, 0),
            (384, 1),
            (512, 2),
            (768, 3),
            (65_536, 16),
            (16_777_215, 31),
        ];
        for (size, bin) in cases {
            assert_eq!(tree_index(size), bin);
        }
    }

    #[test]
    fn a_fresh_arena() {
        let mut words = vec![0; 128];
        (words[1], words[119]) = (945, 80);
        let record = fresh_record(1024);
        assert!(sound(&record, &words));
        for (k, value) in [(1, 944), (1, 947), (1, 949), (1, 961), (119, 81)] {
            let mut other = words.clone();
            other[k] = value;
            assert!(!sound(&record, &other));
        }
        for k in 0..72 {
            let mut other = record;
            other[k] ^= 1;
            assert!(!sound(&other, &words));
        }
    }
}
