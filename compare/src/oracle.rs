//! The crate over one fixed arena. Every place is a byte offset from the arena's start.
use crate::inside::{Dlmalloc, Slot};
use crate::library::Ours;
use crate::Allocator;
use std::alloc::{alloc_zeroed, dealloc, Layout};
use std::cell::Cell;

/// No place.
pub const NONE: u64 = u64::MAX;
/// The parent word of a tree's root.
pub const ROOT: u64 = u64::MAX - 1;

/// Hands out the whole arena once, whatever is asked, and nothing ever after.
struct Region {
    base: *mut u8,
    bytes: usize,
    given: Cell<bool>,
}

unsafe impl Send for Region {}

unsafe impl Allocator for Region {
    fn alloc(&self, _size: usize) -> (*mut u8, usize, u32) {
        if self.given.replace(true) {
            (std::ptr::null_mut(), 0, 0)
        } else {
            (self.base, self.bytes, 0)
        }
    }
    fn remap(&self, _: *mut u8, _: usize, _: usize, _: bool) -> *mut u8 {
        std::ptr::null_mut()
    }
    fn free_part(&self, _: *mut u8, _: usize, _: usize) -> bool {
        false
    }
    fn free(&self, _: *mut u8, _: usize) -> bool {
        false
    }
    fn can_release_part(&self, _: u32) -> bool {
        false
    }
    fn allocates_zeros(&self) -> bool {
        true
    }
    fn page_size(&self) -> usize {
        4096
    }
}

#[derive(Clone, Copy, Debug, PartialEq, Eq)]
pub struct Chunk {
    pub offset: u64,
    pub size: u64,
    pub used: bool,
}

/// A tree bin: a node's place, the rest of its ring in the order of `next`, its size, its children.
#[derive(Clone, Debug, PartialEq, Eq)]
pub struct Tree {
    pub place: u64,
    pub ring: Vec<u64>,
    pub size: u64,
    pub child: [Option<Box<Tree>>; 2],
}

pub struct Oracle {
    // boxed: the crate's small bins point into the record itself
    heap: Box<Dlmalloc<Region>>,
    base: *mut u8,
    layout: Layout,
}

impl Drop for Oracle {
    fn drop(&mut self) {
        unsafe { dealloc(self.base, self.layout) }
    }
}

impl Oracle {
    /// A fresh arena of zero words. The crate has taken its region: it has a top.
    pub fn new(words: usize) -> Oracle {
        Oracle::filled(words, |_| 0)
    }

    /// A fresh arena whose word k held `fill(k)` before set-up.
    pub fn filled(words: usize, fill: impl Fn(usize) -> u64) -> Oracle {
        assert!(words.is_multiple_of(2) && (16..=8192).contains(&words));
        let layout = Layout::from_size_align(words * 8, 4096).unwrap();
        let base = unsafe { alloc_zeroed(layout) };
        assert!(!base.is_null());
        for k in 0..words {
            unsafe { base.cast::<u64>().add(k).write(fill(k)) }
        }
        let region = Region {
            base,
            bytes: words * 8,
            given: Cell::new(false),
        };
        let mut heap = Box::new(Dlmalloc::new(region));
        // the first malloc takes the region even where it has no room; one as long as the arena never has
        let refused = unsafe { heap.malloc(words * 8) };
        assert!(refused.is_null() && heap.record().top == base as usize);
        Oracle { heap, base, layout }
    }

    /// The crate on a fresh region over these words: every chunk but the top taken in address order, then the free ones
    /// given back from the lowest up. Owners' words are as they were.
    pub fn in_order(words: &[u64], chunks: &[Chunk]) -> Oracle {
        let mut oracle = Oracle::filled(words.len(), |k| words[k]);
        for chunk in chunks {
            assert_eq!(oracle.malloc(chunk.size - 8), Some(chunk.offset + 16));
        }
        for chunk in chunks.iter().filter(|c| !c.used) {
            oracle.free(chunk.offset + 16);
        }
        oracle
    }

    /// The crate in a sound state of ours, as if its own calls had led there.
    pub fn holding(ours: &Ours) -> Oracle {
        let mut oracle = Oracle::new(ours.words.len());
        for (k, word) in ours.words.iter().enumerate() {
            oracle.set_word(k as u64, *word);
        }
        let base = oracle.base as usize;
        let oldest = |bin: usize| {
            let older = |chunk: u64| ours.words[chunk as usize / 8 + 2];
            let mut chunk = ours.record[8 + bin];
            while older(chunk) != NONE {
                chunk = older(chunk);
            }
            chunk
        };
        oracle.heap.load(&ours.record, base, oldest);
        for chunk in oracle.chunks().into_iter().filter(|c| !c.used) {
            if chunk.offset != ours.record[2] {
                oracle.load_links(chunk);
            }
        }
        oracle
    }

    /// Makes a binned chunk's links pointers.
    fn load_links(&mut self, chunk: Chunk) {
        let small = chunk.size < 256;
        let bin = if small {
            chunk.size / 8
        } else {
            self.chunk_word(chunk.offset, 7)
        };
        let (small_slot, tree_slot) = self.heap.slots(bin as usize);
        for k in if small { 2..=3 } else { 2..=6 } {
            let address = match self.chunk_word(chunk.offset, k) {
                NONE if small => small_slot,
                NONE => 0,
                ROOT => tree_slot,
                offset => self.base as usize + offset as usize,
            };
            self.set_word(chunk.offset / 8 + k, address as u64);
        }
    }

    /// The arena's byte length.
    pub fn bytes(&self) -> u64 {
        self.layout.size() as u64
    }

    fn offset(&self, address: usize) -> u64 {
        let offset = (address - self.base as usize) as u64;
        assert!(offset < self.bytes());
        offset
    }

    fn answer(&self, block: *mut u8) -> Option<u64> {
        (!block.is_null()).then(|| self.offset(block as usize))
    }

    fn block(&self, offset: u64) -> *mut u8 {
        assert!(offset < self.bytes());
        self.base.wrapping_add(offset as usize)
    }

    // ---- the four calls; refusal 4 is answered here and never reaches the crate

    pub fn malloc(&mut self, bytes: u64) -> Option<u64> {
        if bytes > self.bytes() {
            return None;
        }
        let block = unsafe { self.heap.malloc(bytes as usize) };
        self.answer(block)
    }

    pub fn free(&mut self, offset: u64) {
        let block = self.block(offset);
        unsafe { self.heap.free(block) }
    }

    pub fn realloc(&mut self, offset: u64, bytes: u64) -> Option<u64> {
        if bytes > self.bytes() {
            return None;
        }
        let block = self.block(offset);
        let moved = unsafe { self.heap.realloc(block, bytes as usize) };
        self.answer(moved)
    }

    pub fn memalign(&mut self, align: u64, bytes: u64) -> Option<u64> {
        if bytes > self.bytes() {
            return None;
        }
        let block = unsafe { self.heap.memalign(align as usize, bytes as usize) };
        self.answer(block)
    }

    // ---- readers

    /// The top and its size.
    pub fn top(&self) -> (u64, u64) {
        let r = self.heap.record();
        (self.offset(r.top), r.topsize as u64)
    }

    /// The spare chunk and its size.
    pub fn dv(&self) -> Option<(u64, u64)> {
        let r = self.heap.record();
        (r.dvsize != 0).then(|| (self.offset(r.dv), r.dvsize as u64))
    }

    pub fn smallmap(&self) -> u32 {
        self.heap.record().smallmap
    }

    pub fn treemap(&self) -> u32 {
        self.heap.record().treemap
    }

    /// The record in the order of our 72 words; an empty small bin holds none.
    pub fn image(&self) -> [u64; 72] {
        let r = self.heap.record();
        let mut image = [NONE; 72];
        image[0] = r.smallmap.into();
        image[1] = r.treemap.into();
        if r.dvsize != 0 {
            image[2] = self.offset(r.dv);
        }
        image[3] = r.dvsize as u64;
        image[4] = self.offset(r.top);
        image[5] = r.topsize as u64;
        image[6] = self.bytes();
        image[7] = 0;
        for bin in 0..32 {
            if r.smallmap >> bin & 1 == 1 {
                image[8 + bin] = self.offset(r.newest[bin]);
            }
            if r.treemap >> bin & 1 == 1 {
                image[40 + bin] = self.offset(r.roots[bin]);
            }
        }
        image
    }

    /// Every word of the arena, as it stands.
    pub fn words(&self) -> &[u64] {
        let words = self.layout.size() / 8;
        unsafe { std::slice::from_raw_parts(self.base.cast(), words) }
    }

    /// Word k of the arena, as it stands.
    pub fn word(&self, k: u64) -> u64 {
        assert!(k * 8 < self.bytes());
        unsafe { self.base.cast::<u64>().add(k as usize).read() }
    }

    /// Writes word k of the arena, as an owner does in its block.
    pub fn set_word(&mut self, k: u64, value: u64) {
        assert!(k * 8 < self.bytes());
        unsafe { self.base.cast::<u64>().add(k as usize).write(value) }
    }

    /// Word k of the chunk at an offset, as it stands.
    pub fn chunk_word(&self, chunk: u64, k: u64) -> u64 {
        self.word(chunk / 8 + k)
    }

    /// Word k (2 to 6) of a binned chunk, its pointer read as an offset.
    pub fn link(&self, chunk: u64, k: u64) -> u64 {
        self.as_link(self.chunk_word(chunk, k) as usize)
    }

    fn as_link(&self, address: usize) -> u64 {
        self.may_be_link(address).unwrap()
    }

    /// A word read as a pointer of the crate's, if it can be one.
    pub fn may_be_link(&self, address: usize) -> Option<u64> {
        let base = self.base as usize;
        match self.heap.slot(address) {
            _ if address == 0 => Some(NONE),
            Slot::Small => Some(NONE),
            Slot::Tree => Some(ROOT),
            Slot::Elsewhere if (base..base + self.layout.size()).contains(&address) => {
                Some(self.offset(address))
            }
            Slot::Elsewhere => None,
        }
    }

    /// The chunks from 0 to the top in address order, the top left out.
    pub fn chunks(&self) -> Vec<Chunk> {
        let (top, _) = self.top();
        let mut all = Vec::new();
        let mut offset = 0;
        while offset < top {
            let head = self.chunk_word(offset, 1);
            let (size, used) = (head & !7, head & 2 != 0);
            assert!(size >= 32 && size.is_multiple_of(16));
            all.push(Chunk { offset, size, used });
            offset += size;
        }
        assert_eq!(offset, top);
        all
    }

    /// The newest chunk of a small bin.
    pub fn small_head(&self, bin: usize) -> Option<u64> {
        let r = self.heap.record();
        (r.smallmap >> bin & 1 == 1).then(|| self.offset(r.newest[bin]))
    }

    /// The root of a tree bin.
    pub fn tree_root(&self, bin: usize) -> Option<u64> {
        let r = self.heap.record();
        (r.treemap >> bin & 1 == 1).then(|| self.offset(r.roots[bin]))
    }

    /// A small bin from the newest.
    pub fn small_bin(&self, bin: usize) -> Vec<u64> {
        let mut all = Vec::new();
        let mut next = self.small_head(bin);
        while let Some(chunk) = next {
            all.push(chunk);
            let older = self.link(chunk, 2);
            next = (older != NONE).then_some(older);
        }
        all
    }

    pub fn tree_bin(&self, bin: usize) -> Option<Box<Tree>> {
        self.tree_root(bin).map(|root| self.tree_at(root))
    }

    fn tree_at(&self, place: u64) -> Box<Tree> {
        let mut ring = Vec::new();
        let mut next = self.link(place, 3);
        while next != place {
            ring.push(next);
            next = self.link(next, 3);
        }
        let below = |k| {
            let child = self.link(place, k);
            (child != NONE).then(|| self.tree_at(child))
        };
        Box::new(Tree {
            place,
            ring,
            size: self.chunk_word(place, 1) & !7,
            child: [below(4), below(5)],
        })
    }
}
