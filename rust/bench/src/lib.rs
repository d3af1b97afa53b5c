//! The tuned model: the rules of the scope document in the fastest honest Rust, on a state of its own that no caller
//! can reach, so that it has nothing to test between calls. The proved machine is timed against it.
pub mod tuned;
