//! Prints the crate's answers on document 01's "A morning on 128 words" beside the document's numbers.
fn main() {
    #[cfg(crate_there)]
    compare::morning::run();
    #[cfg(not(crate_there))]
    compare::say_missing();
}
