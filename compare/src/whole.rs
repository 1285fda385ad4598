//! Changes of several words that fit together: some such states are sound, most only nearly.
use crate::damage::{Change, Places};
use crate::history::Rng;
use crate::library::{Ours, RECORD_WORDS};
use crate::oracle::{NONE, ROOT};

/// A sound state that is to be changed.
struct Base<'a> {
    state: &'a Ours,
    places: &'a Places,
}

/// One of the changes; none where the state has nothing for it.
pub fn change(rng: &mut Rng, state: &Ours, places: &Places) -> Vec<Change> {
    let base = Base { state, places };
    match rng.below(18) {
        0 => base.children_change_sides(rng),
        1 => base.bin_moves(rng),
        2 => base.spare_forgotten(),
        3 => base.other_spare(rng),
        4 => base.free_becomes_used(rng),
        5..=6 => base.used_becomes_spare(rng),
        7 => base.neighbours_join(rng),
        8 => base.cut_in_two(rng),
        9 => base.border_moves(rng),
        10 => base.top_ends_early(rng),
        11 => base.equal_size_below(rng),
        12 => base.spare_told_off_its_place(rng),
        13 => base.last_becomes_spare(rng),
        14 => base.last_is_binned(),
        15 => base.border_moves_by_a_word(rng),
        16 => base.longer_map(rng),
        _ => base.small_in_a_tree(rng),
    }
    .unwrap_or_default()
}

fn at(chunk: u64, k: u64) -> usize {
    (chunk / 8 + k) as usize
}

fn set(chunk: u64, k: u64, value: u64) -> Change {
    Change::Word(at(chunk, k), value)
}

fn any(rng: &mut Rng, from: &[u64]) -> Option<u64> {
    (!from.is_empty()).then(|| rng.pick(from))
}

impl Base<'_> {
    fn word(&self, chunk: u64, k: u64) -> u64 {
        self.state.words[at(chunk, k)]
    }

    fn size(&self, chunk: u64) -> u64 {
        self.word(chunk, 1) & !7
    }

    fn children_change_sides(&self, rng: &mut Rng) -> Option<Vec<Change>> {
        let node = any(rng, &self.places.trees)?;
        let (left, right) = (self.word(node, 4), self.word(node, 5));
        Some(vec![set(node, 4, right), set(node, 5, left)])
    }

    /// With the map, and the index in a tree's root.
    fn bin_moves(&self, rng: &mut Rng) -> Option<Vec<Change>> {
        let record = &self.state.record;
        let from = (8..RECORD_WORDS).rev().find(|i| record[*i] != NONE)?;
        let base = if from < 40 { 8 } else { 40 };
        let to = base + rng.below(32) as usize;
        let map = usize::from(base == 40);
        let bits = record[map] & !(1 << (from - base)) | 1 << (to - base);
        let head = record[from];
        let mut all = vec![Change::Record(from, NONE), Change::Record(to, head)];
        all.push(Change::Record(map, bits));
        if base == 40 {
            all.push(set(head, 7, (to - 40) as u64));
        }
        Some(all)
    }

    fn spare_forgotten(&self) -> Option<Vec<Change>> {
        Some(vec![Change::Record(2, NONE), Change::Record(3, 0)])
    }

    /// The spare chunk's offset a little too high, with a head where one is then looked for.
    fn spare_told_off_its_place(&self, rng: &mut Rng) -> Option<Vec<Change>> {
        let spare = Some(self.state.record[2]).filter(|dv| *dv != NONE)?;
        let by = rng.pick(&[4, 8, 8, 8]);
        let head = self.size(spare) + 1;
        Some(vec![
            Change::Record(2, spare + by),
            set(spare, 1 + by / 8, head),
        ])
    }

    /// Another free chunk is the spare one as well as where it was.
    fn other_spare(&self, rng: &mut Rng) -> Option<Vec<Change>> {
        let other = any(rng, &self.places.free)?;
        let size = self.size(other);
        Some(vec![Change::Record(2, other), Change::Record(3, size)])
    }

    /// Sound where it was the spare one and that is dropped.
    fn free_becomes_used(&self, rng: &mut Rng) -> Option<Vec<Change>> {
        let chunk = any(rng, &self.places.free)?;
        let next = chunk + self.size(chunk);
        let mut all = vec![
            set(chunk, 1, self.word(chunk, 1) | 2),
            set(next, 1, self.word(next, 1) | 1),
        ];
        if self.state.record[2] == chunk {
            all.extend(self.spare_forgotten()?);
        }
        Some(all)
    }

    /// Sound where no free one adjoins and there was no spare one. Half the time it says that the one before is used.
    fn used_becomes_spare(&self, rng: &mut Rng) -> Option<Vec<Change>> {
        let chunk = any(rng, &self.places.chunks)?;
        let size = self.size(chunk);
        let next = chunk + size;
        let says = rng.below(2) | self.word(chunk, 1) & 1;
        Some(vec![
            set(chunk, 1, size + says),
            set(next, 1, self.word(next, 1) & !1),
            set(next, 0, size),
            Change::Record(2, chunk),
            Change::Record(3, size),
        ])
    }

    /// The chunk before the top becomes the spare one; half the time the top's head still says that it is used.
    fn last_becomes_spare(&self, rng: &mut Rng) -> Option<Vec<Change>> {
        let chunk = *self.places.chunks.last()?;
        let (size, top) = (self.size(chunk), self.state.record[4]);
        Some(vec![
            set(chunk, 1, size + (self.word(chunk, 1) & 1)),
            set(top, 1, self.word(top, 1) & !1 | rng.below(2)),
            set(top, 0, size),
            Change::Record(2, chunk),
            Change::Record(3, size),
        ])
    }

    /// The chunk before the top goes into its small bin, which was empty: all is told, but that the top adjoins it.
    fn last_is_binned(&self) -> Option<Vec<Change>> {
        let chunk = *self.places.chunks.last()?;
        let (size, top) = (self.size(chunk), self.state.record[4]);
        let bin = (size / 8) as usize;
        if size >= 256 || self.state.record[8 + bin] != NONE {
            return None;
        }
        Some(vec![
            set(chunk, 1, size + (self.word(chunk, 1) & 1)),
            set(chunk, 2, NONE),
            set(chunk, 3, NONE),
            set(top, 0, size),
            Change::Record(8 + bin, chunk),
            Change::Record(0, self.state.record[0] | 1 << bin),
        ])
    }

    /// Two used chunks whose sizes are 8 more and 8 less, the second one's head a word further on.
    fn border_moves_by_a_word(&self, rng: &mut Rng) -> Option<Vec<Change>> {
        let (a, b) = self.neighbours(rng)?;
        let (head, next) = (self.word(a, 1), self.word(b, 1));
        Some(vec![set(a, 1, head + 8), set(b, 2, next - 8)])
    }

    /// A map with a bit above its 32.
    fn longer_map(&self, rng: &mut Rng) -> Option<Vec<Change>> {
        let map = rng.below(2) as usize;
        let bits = self.state.record[map] | 1 << (32 + rng.below(32));
        Some(vec![Change::Record(map, bits)])
    }

    /// Sound where both are used.
    fn neighbours_join(&self, rng: &mut Rng) -> Option<Vec<Change>> {
        let (a, b) = self.neighbours(rng)?;
        Some(vec![set(a, 1, self.word(a, 1) + self.size(b))])
    }

    fn neighbours(&self, rng: &mut Rng) -> Option<(u64, u64)> {
        let chunks = &self.places.chunks;
        let pairs = chunks.len().checked_sub(1).filter(|n| *n > 0)?;
        let i = rng.below(pairs as u64) as usize;
        Some((chunks[i], chunks[i + 1]))
    }

    /// Sound where it was used and both parts are large enough.
    fn cut_in_two(&self, rng: &mut Rng) -> Option<Vec<Change>> {
        let chunk = any(rng, &self.places.chunks)?;
        let first = 16 * (1 + rng.below(self.size(chunk) / 16));
        let rest = self.size(chunk) - first;
        let head = self.word(chunk, 1) - rest;
        Some(vec![set(chunk, 1, head), set(chunk + first, 1, rest + 3)])
    }

    /// What one chunk gets more the next gets less, by a number that is no size: the bit worth 4, or 8.
    fn border_moves(&self, rng: &mut Rng) -> Option<Vec<Change>> {
        let (a, b) = self.neighbours(rng)?;
        let by = rng.pick(&[4, 4, 8, 12]);
        let (head, next) = (self.word(a, 1), self.word(b, 1));
        Some(vec![set(a, 1, head + by), set(b, 1, next - by)])
    }

    /// A shorter top, told by record, head and a foot word of its own.
    fn top_ends_early(&self, rng: &mut Rng) -> Option<Vec<Change>> {
        let (top, topsize) = (self.state.record[4], self.state.record[5]);
        let less = 16 * rng.below(topsize / 16);
        Some(vec![
            Change::Record(5, less),
            set(top, 1, less + 1),
            set(top + less, 1, if less == 0 { 1 } else { 80 }),
        ])
    }

    /// One of a ring goes under the node of its size, on the side of its bits: all is told, but one size stands twice.
    fn equal_size_below(&self, rng: &mut Rng) -> Option<Vec<Change>> {
        let spare = self.state.record[2];
        let rings: Vec<u64> = self
            .places
            .trees
            .iter()
            .copied()
            .filter(|c| *c != spare)
            .collect();
        let lone = |c: &u64| self.word(*c, 6) == NONE;
        let members: Vec<u64> = rings.into_iter().filter(lone).collect();
        let member = any(rng, &members)?;
        let (size, bin) = (self.size(member), self.word(member, 7));
        let (before, after) = (self.word(member, 2), self.word(member, 3));
        let mut node = after;
        while self.word(node, 6) == NONE {
            node = self.word(node, 3);
        }
        let mut depth = 0;
        let mut up = node;
        while self.word(up, 6) != ROOT {
            up = self.word(up, 6);
            depth += 1;
        }
        loop {
            let side = 4 + (size >> (bin / 2 + 6).checked_sub(depth)? & 1);
            let below = self.word(node, side);
            if below == NONE {
                let links = [(2, member), (3, member), (6, node)];
                let mut all = vec![set(before, 3, after), set(after, 2, before)];
                all.extend(links.map(|(k, value)| set(member, k, value)));
                all.push(set(node, side, member));
                return Some(all);
            }
            node = below;
            depth += 1;
        }
    }

    /// A small chunk that is alone in its bin goes to tree 0, whose index it would have.
    fn small_in_a_tree(&self, rng: &mut Rng) -> Option<Vec<Change>> {
        let record = &self.state.record;
        let alone = |bin: &u64| {
            let chunk = record[8 + *bin as usize];
            chunk != NONE && self.word(chunk, 2) == NONE
        };
        // eight words hold the links of a tree
        let bins: Vec<u64> = (8..32).filter(alone).collect();
        let bin = any(rng, &bins)? as usize;
        let chunk = record[8 + bin];
        if record[40] != NONE {
            return None;
        }
        let links = [
            (2, chunk),
            (3, chunk),
            (4, NONE),
            (5, NONE),
            (6, ROOT),
            (7, 0),
        ];
        let mut all: Vec<Change> = links.map(|(k, value)| set(chunk, k, value)).to_vec();
        all.extend([Change::Record(8 + bin, NONE), Change::Record(40, chunk)]);
        all.push(Change::Record(0, record[0] & !(1 << bin)));
        all.push(Change::Record(1, record[1] | 1));
        Some(all)
    }
}
