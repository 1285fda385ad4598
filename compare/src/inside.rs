// The crate's dlmalloc.rs, word for word, and below it readers of what it keeps private.
include!(concat!(env!("OUT_DIR"), "/dlmalloc.rs"));

/// The crate's record, with its pointers as plain addresses.
pub struct Record {
    pub smallmap: u32,
    pub treemap: u32,
    /// the newest of each small bin; stale where the map's bit is clear
    pub newest: [usize; NSMALLBINS],
    pub roots: [usize; NTREEBINS],
    pub dv: usize,
    pub dvsize: usize,
    pub top: usize,
    pub topsize: usize,
}

/// Where in the record an address points.
#[derive(PartialEq, Eq)]
pub enum Slot {
    Small,
    Tree,
    Elsewhere,
}

impl<A> Dlmalloc<A> {
    pub fn record(&self) -> Record {
        Record {
            smallmap: self.smallmap,
            treemap: self.treemap,
            // bin i is laid over entries 2i to 2i+3, its `prev` is entry 2i+2
            newest: core::array::from_fn(|i| self.smallbins[2 * i + 2] as usize),
            roots: core::array::from_fn(|i| self.treebins[i] as usize),
            dv: self.dv as usize,
            dvsize: self.dvsize,
            top: self.top as usize,
            topsize: self.topsize,
        }
    }

    /// Makes the record that of a heap at `base` that our 72 words tell of. `oldest` gives each small bin's other end.
    pub fn load(&mut self, image: &[u64; 72], base: usize, oldest: impl Fn(usize) -> u64) {
        let place = |off: u64| {
            if off == u64::MAX {
                0
            } else {
                base + off as usize
            }
        };
        self.smallmap = image[0] as u32;
        self.treemap = image[1] as u32;
        self.dv = place(image[2]) as *mut Chunk;
        self.dvsize = image[3] as usize;
        self.top = place(image[4]) as *mut Chunk;
        self.topsize = image[5] as usize;
        for bin in 0..NSMALLBINS {
            self.treebins[bin] = place(image[40 + bin]) as *mut TreeChunk;
            if image[8 + bin] != u64::MAX {
                self.smallbins[2 * bin + 2] = place(image[8 + bin]) as *mut Chunk;
                self.smallbins[2 * bin + 3] = place(oldest(bin)) as *mut Chunk;
            }
        }
    }

    /// Where a small bin's fake chunk and a tree's root stand in the record.
    pub fn slots(&self, bin: usize) -> (usize, usize) {
        let (small, tree) = (&self.smallbins[2 * bin], &self.treebins[bin]);
        (
            core::ptr::from_ref(small) as usize,
            core::ptr::from_ref(tree) as usize,
        )
    }

    pub fn slot(&self, address: usize) -> Slot {
        let small = self.smallbins.as_ptr_range();
        let tree = self.treebins.as_ptr_range();
        if (small.start as usize..small.end as usize).contains(&address) {
            Slot::Small
        } else if (tree.start as usize..tree.end as usize).contains(&address) {
            Slot::Tree
        } else {
            Slot::Elsewhere
        }
    }
}
