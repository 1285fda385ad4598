//! Our library and the crate in lockstep, and the check on damaged records and arenas.
fn main() {
    #[cfg(all(crate_there, library_there))]
    compare::lockstep::run();
    #[cfg(not(crate_there))]
    compare::say_missing();
    #[cfg(all(crate_there, not(library_there)))]
    compare::say_no_library();
}
