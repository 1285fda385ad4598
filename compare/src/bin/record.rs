//! Writes ../crates/recorded/stdin, a sample of the crate's answers for programs to replay.
fn main() {
    #[cfg(crate_there)]
    compare::record::run();
    #[cfg(not(crate_there))]
    compare::say_missing();
}
