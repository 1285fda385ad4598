//! Writes histories with the crate's answers as antt tables that the rules must reproduce.
fn main() {
    #[cfg(crate_there)]
    compare::table::run();
    #[cfg(not(crate_there))]
    compare::say_missing();
}
