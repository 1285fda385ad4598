//! The Rust crate dlmalloc 0.2.14 as an oracle: what it answers on one fixed arena, in offsets, and our library beside it.

#[cfg(crate_there)]
pub mod batch;
#[cfg(crate_there)]
pub mod case;
#[cfg(crate_there)]
pub mod damage;
#[cfg(crate_there)]
pub mod figures;
#[cfg(crate_there)]
pub mod history;
#[cfg(crate_there)]
#[allow(dead_code, clippy::all)]
mod inside;
#[cfg(crate_there)]
pub mod lent;
#[cfg(crate_there)]
pub mod library;
#[cfg(crate_there)]
pub mod lockstep;
#[cfg(crate_there)]
pub mod logs;
#[cfg(crate_there)]
pub mod look;
#[cfg(crate_there)]
pub mod made_up;
#[cfg(crate_there)]
pub mod morning;
#[cfg(crate_there)]
pub mod oracle;
#[cfg(crate_there)]
pub mod pair;
#[cfg(crate_there)]
pub mod play;
#[cfg(crate_there)]
pub mod probes;
#[cfg(all(crate_there, library_there))]
#[path = "../../bindings/rust/src/raw.rs"]
mod raw;
#[cfg(crate_there)]
pub mod reading;
#[cfg(crate_there)]
pub mod rebuilt;
#[cfg(crate_there)]
pub mod record;
#[cfg(crate_there)]
pub mod rng;
#[cfg(all(crate_there, library_there))]
pub mod speed;
#[cfg(crate_there)]
pub mod steps;
#[cfg(crate_there)]
pub mod table;
#[cfg(all(crate_there, library_there))]
pub mod traces;
#[cfg(crate_there)]
pub mod whole;

/// The system below the crate: its own trait, as its lib.rs declares it.
///
/// # Safety
/// `alloc` must hand out memory that nothing else uses.
pub unsafe trait Allocator: Send {
    fn alloc(&self, size: usize) -> (*mut u8, usize, u32);
    fn remap(&self, ptr: *mut u8, oldsize: usize, newsize: usize, can_move: bool) -> *mut u8;
    fn free_part(&self, ptr: *mut u8, oldsize: usize, newsize: usize) -> bool;
    fn free(&self, ptr: *mut u8, size: usize) -> bool;
    fn can_release_part(&self, flags: u32) -> bool;
    fn allocates_zeros(&self) -> bool;
    fn page_size(&self) -> usize;
}

/// What every program here says where the crate's source isn't at hand.
pub fn say_missing() {
    println!("nothing compared: the folder that NUKASOBE_CRATE names (default ../../shared/docs/src) has no src/dlmalloc.rs");
}

/// The same where our archive isn't.
pub fn say_no_library() {
    println!("nothing compared: the folder that NUKASOBE_LIB names (default ../target/host) has no libabi.a; compare/build_library.sh makes it");
}
