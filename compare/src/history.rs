//! Seeded histories of calls, each made in view of the heap as it stands, so that exact fits,
//! small remainders and an exhausted top come up often.
use crate::oracle::{Chunk, Oracle};
pub use crate::rng::Rng;

#[derive(Clone, Copy, Debug, PartialEq, Eq)]
pub enum Call {
    Malloc(u64),
    Free(u64),
    Realloc(u64, u64),
    Memalign(u64, u64),
}

/// What a stretch of a history is after.
#[derive(Clone, Copy, Debug, PartialEq, Eq)]
pub enum Phase {
    /// mostly mallocs
    Grow,
    /// everything in turn
    Churn,
    /// mostly frees
    Shrink,
    /// large blocks with small ones between them, so that freed ones don't merge
    Comb,
    /// free the large ones, in any order: rings and tries
    OpenGaps,
    /// take what was opened, near its sizes
    Serve,
    /// mostly reallocs
    Resize,
    /// mostly memaligns
    Align,
}

/// Each plan is a list of stretches, in tenths of the history.
pub const PLANS: [&[(Phase, u64)]; 8] = [
    &[(Phase::Grow, 4), (Phase::Churn, 4), (Phase::Shrink, 2)],
    &[(Phase::Comb, 5), (Phase::OpenGaps, 2), (Phase::Serve, 3)],
    &[(Phase::Churn, 10)],
    &[(Phase::Grow, 3), (Phase::Resize, 5), (Phase::Shrink, 2)],
    &[(Phase::Align, 6), (Phase::Churn, 4)],
    &[
        (Phase::Comb, 4),
        (Phase::OpenGaps, 2),
        (Phase::Resize, 2),
        (Phase::Align, 2),
    ],
    &[(Phase::Grow, 5), (Phase::Shrink, 3), (Phase::Serve, 2)],
    &[
        (Phase::Comb, 4),
        (Phase::OpenGaps, 2),
        (Phase::Shrink, 1),
        (Phase::Comb, 1),
        (Phase::OpenGaps, 2),
    ],
];

/// malloc, free, realloc, memalign
fn weights(phase: Phase) -> [u64; 4] {
    match phase {
        Phase::Grow => [70, 12, 12, 6],
        Phase::Churn => [36, 34, 20, 10],
        Phase::Shrink => [15, 65, 15, 5],
        Phase::Comb => [96, 2, 1, 1],
        Phase::OpenGaps => [2, 96, 1, 1],
        Phase::Serve => [60, 15, 15, 10],
        Phase::Resize => [15, 15, 65, 5],
        Phase::Align => [10, 28, 12, 50],
    }
}

/// Requests at which the need, the bin or the kind of bin changes.
const EDGES: [u64; 24] = [
    0, 1, 22, 23, 24, 25, 40, 41, 56, 57, 88, 89, 216, 217, 231, 232, 233, 234, 248, 249, 376, 377,
    504, 760,
];

/// What a seed stands for.
#[derive(Clone, Copy, Debug)]
pub struct Setting {
    pub seed: u64,
    pub words: usize,
    /// the number of a plan
    pub plan: usize,
    pub calls: u64,
}

impl Setting {
    /// Most arenas are small, so that they fill up; every fourth is large and combed, so that trees grow.
    pub fn of(seed: u64, largest: usize) -> Setting {
        let mut rng = Rng::new(seed ^ 0x7a61);
        let calls = 20 + rng.below(41);
        if seed.is_multiple_of(4) {
            let words = rng.pick(&[512, 1024, 1024, 2048, 4096, 8192]).min(largest);
            let plan = rng.pick(&[1, 5, 7]);
            let calls = calls.max(50);
            return Setting {
                seed,
                words,
                plan,
                calls,
            };
        }
        let small = [48, 64, 96, 128, 200, 256, 384, 512, 512];
        let tiny = [16, 18, 20, 22, 24, 32];
        let from = if seed.is_multiple_of(5) {
            &tiny[..]
        } else {
            &small[..]
        };
        let words = rng.pick(from);
        let plan = rng.below(PLANS.len() as u64) as usize;
        Setting {
            seed,
            words,
            plan,
            calls,
        }
    }
}

pub struct Maker {
    rng: Rng,
    bytes: u64,
    live: Vec<u64>,
    plan: &'static [(Phase, u64)],
    calls: u64,
    made: u64,
    /// the chunk sizes of this history's combs
    teeth: Vec<u64>,
    last: u64,
    /// the last call was refused
    crowded: bool,
}

impl Maker {
    pub fn new(setting: Setting) -> Maker {
        let mut rng = Rng::new(setting.seed);
        let bytes = setting.words as u64 * 8;
        let teeth = teeth(&mut rng, bytes);
        Maker {
            rng,
            bytes,
            live: Vec::new(),
            plan: PLANS[setting.plan],
            calls: setting.calls,
            made: 0,
            teeth,
            last: 24,
            crowded: false,
        }
    }

    fn phase(&self) -> Phase {
        let mut tenths = self.made * 10 / self.calls.max(1);
        for (phase, share) in self.plan {
            if tenths < *share {
                // a comb that is full is opened early
                let full = *phase == Phase::Comb && self.crowded;
                return if full { Phase::OpenGaps } else { *phase };
            }
            tenths -= share;
        }
        Phase::Churn
    }

    /// The next call, always one that doesn't get 1, 2, 3 or 5.
    pub fn next(&mut self, heap: &Oracle) -> Call {
        let phase = self.phase();
        let view = View::of(heap);
        self.made += 1;
        match self.kind(phase) {
            0 => Call::Malloc(self.request(phase, &view)),
            1 => Call::Free(self.victim(phase, &view)),
            2 => {
                let block = self.resized(&view);
                Call::Realloc(block, self.new_size(block, phase, &view))
            }
            _ => self.aligned(phase, &view),
        }
    }

    /// malloc, free, realloc, memalign; after a refusal mostly something that makes room
    fn kind(&mut self, phase: Phase) -> usize {
        if self.live.is_empty() {
            self.rng.weighted(&[90, 0, 0, 10])
        } else if self.crowded && self.rng.chance(60) {
            self.rng.weighted(&[0, 75, 25, 0])
        } else {
            self.rng.weighted(&weights(phase))
        }
    }

    /// Blocks that are live before the first call.
    pub fn knows(&mut self, blocks: impl Iterator<Item = u64>) {
        self.live.extend(blocks);
    }

    /// Keeps the list of live blocks.
    pub fn settle(&mut self, call: Call, answer: Option<u64>) {
        self.crowded = answer.is_none() && !matches!(call, Call::Free(_));
        match call {
            Call::Free(old) => self.live.retain(|b| *b != old),
            Call::Realloc(old, _) if answer.is_some() => self.live.retain(|b| *b != old),
            _ => {}
        }
        self.live.extend(answer);
    }

    fn victim(&mut self, phase: Phase, view: &View) -> u64 {
        // every used chunk is a live block
        let large: Vec<u64> = view.used_large().collect();
        if phase == Phase::OpenGaps && !large.is_empty() {
            self.rng.pick(&large)
        } else {
            self.rng.pick(&self.live)
        }
    }

    /// Any live block, half the time one with a free chunk after it.
    fn resized(&mut self, view: &View) -> u64 {
        let before: Vec<u64> = view.before_free().collect();
        if !before.is_empty() && self.rng.chance(50) {
            self.rng.pick(&before)
        } else {
            self.rng.pick(&self.live)
        }
    }

    fn request(&mut self, phase: Phase, view: &View) -> u64 {
        let n = match phase {
            Phase::Comb if self.made.is_multiple_of(2) => self.rng.pick(&[20, 24, 24, 25]),
            Phase::Comb => self.rng.pick(&self.teeth) - 8 - self.rng.below(9),
            Phase::Serve => self.near_free(view),
            _ => self.any_request(view),
        };
        self.last = n;
        n
    }

    fn any_request(&mut self, view: &View) -> u64 {
        match self.rng.weighted(&[14, 20, 16, 22, 8, 8, 8, 2, 2]) {
            0 => self.rng.pick(&EDGES),
            1 => self.rng.below(240),
            2 => 240 + self.rng.below(self.bytes / 4),
            3 => self.near_free(view),
            4 => near_top(&mut self.rng, view),
            5 => self.last,
            6 => self.rng.pick(&self.teeth) - 8,
            7 => self.rng.below(self.bytes + 1),
            _ => self.bytes + self.rng.pick(&[0, 1, 8, 1000, 1 << 40]),
        }
    }

    /// About the size of a free chunk: exactly, or with 16, 32, 48 over, or one byte too many.
    fn near_free(&mut self, view: &View) -> u64 {
        if view.free.is_empty() {
            return self.rng.pick(&EDGES);
        }
        let size = self.rng.pick(&view.free).size;
        near(&mut self.rng, size)
    }

    /// A new size for a block: about its own, its sum with what follows, or any.
    fn new_size(&mut self, block: u64, phase: Phase, view: &View) -> u64 {
        let (own, after) = view.around(block - 16);
        match self.rng.weighted(&[30, 45, 25]) {
            0 => near(&mut self.rng, own),
            1 => near(&mut self.rng, own + after),
            _ => self.request(phase, view),
        }
    }

    fn aligned(&mut self, phase: Phase, view: &View) -> Call {
        // mostly up to an eighth of the arena, seldom one that can hardly fit
        let most = (self.bytes.ilog2() as u64 - 3).clamp(5, 12);
        let exponents = if self.rng.chance(90) { most - 4 } else { 8 };
        let exponent = 5 + self.rng.below(exponents);
        let align = 1 << exponent;
        if self.rng.chance(35) {
            // the inner request nb + align + 32 near a free chunk or the top
            let size = self.near_free(view).saturating_sub(align + 32);
            return Call::Memalign(align, size);
        }
        Call::Memalign(align, self.request(phase, view).min(self.bytes + 1))
    }
}

/// Sizes for one history's combs: one or a few for rings, all of one tree bin for tries.
fn teeth(rng: &mut Rng, bytes: u64) -> Vec<u64> {
    let widest = (bytes / 16).max(256).ilog2() as u64;
    let low = 1 << (8 + rng.below(widest.saturating_sub(7).min(5)));
    match rng.below(6) {
        0 => vec![low + 16 * rng.below(low / 16)],
        1 => vec![low, low + low / 2, low + 16 * rng.below(low / 16)],
        // a small need of 240 leaves 16 of a chunk of 256
        2 => vec![256, 256, 272],
        _ => {
            let from = low + rng.below(2) * low / 2;
            (0..low / 32).map(|k| from + 16 * k).collect()
        }
    }
}

/// A request whose need is a chunk's size, or leaves 16, 32 or 48 of it, or is just above it.
fn near(rng: &mut Rng, size: u64) -> u64 {
    let slack = rng.pick(&[0, 0, 0, 16, 16, 32, 32, 33, 48, 64, 96, 160]);
    match rng.below(8) {
        0 => (size + 1).saturating_sub(8),
        1 => (size + 16).saturating_sub(8),
        2 => size.saturating_sub(8 + rng.below(size)),
        _ => size.saturating_sub(8 + slack + rng.below(2) * rng.below(16)),
    }
}

/// A request whose need is the top's size (no room), or leaves 16 or 32 of it.
fn near_top(rng: &mut Rng, view: &View) -> u64 {
    let left = rng.pick(&[0, 0, 16, 16, 32, 48, 7, 8, 9]);
    view.topsize.saturating_sub(8 + left)
}

/// The heap as a maker looks at it.
struct View {
    chunks: Vec<Chunk>,
    free: Vec<Chunk>,
    topsize: u64,
}

impl View {
    fn of(heap: &Oracle) -> View {
        let chunks = heap.chunks();
        let free = chunks.iter().copied().filter(|c| !c.used).collect();
        View {
            chunks,
            free,
            topsize: heap.top().1,
        }
    }

    /// Blocks of 256 and more.
    fn used_large(&self) -> impl Iterator<Item = u64> + '_ {
        let large = |c: &&Chunk| c.used && c.size >= 256;
        self.chunks.iter().filter(large).map(|c| c.offset + 16)
    }

    /// Blocks with a free chunk after them.
    fn before_free(&self) -> impl Iterator<Item = u64> + '_ {
        let pairs = self.chunks.windows(2).filter(|p| p[0].used && !p[1].used);
        pairs.map(|p| p[0].offset + 16)
    }

    /// A chunk's size, and the size of what follows it if that is free or the top.
    fn around(&self, chunk: u64) -> (u64, u64) {
        let at = self.chunks.iter().position(|c| c.offset == chunk).unwrap();
        let after = match self.chunks.get(at + 1) {
            None => self.topsize,
            Some(next) if !next.used => next.size,
            Some(_) => 0,
        };
        (self.chunks[at].size, after)
    }
}
