//! Nanoseconds a call, ours beside the crate's.
fn main() {
    #[cfg(all(crate_there, library_there))]
    compare::traces::run();
    #[cfg(not(crate_there))]
    compare::say_missing();
    #[cfg(all(crate_there, not(library_there)))]
    compare::say_no_library();
}
