//! Nukasobe from Rust: dlmalloc over one arena that a value owns. Blocks are byte offsets from the arena's start, so an
//! `Arena` can be moved, cloned and kept. Whatever is asked, the answer is a value or a [`Refusal`]; a refused call
//! changes nothing.
//!
//! ```
//! use nukasobe::{Arena, Refusal};
//!
//! let mut arena = Arena::new(128)?;
//! let block = arena.malloc(24)?;
//! arena.words_mut(block)?.copy_from_slice(&[7, 8, 9]);
//! let block = arena.realloc(block, 100)?;
//! assert_eq!(arena.words(block)?[..3], [7, 8, 9]);
//! arena.free(block)?;
//! assert_eq!(arena.free(block), Err(Refusal::NotLive(block)));
//! # Ok::<(), Refusal>(())
//! ```
mod arena;
mod batch;
mod raw;
mod refusal;

pub use arena::{Arena, LARGEST, RECORD_WORDS};
pub use batch::Batch;
pub use refusal::Refusal;
