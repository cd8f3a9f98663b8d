// The second program: the paper's rules written again in plain Rust, one module a subject.
// It rests on the paper and the standard library alone.

pub mod automaton;
pub mod file;
pub mod layering;
pub mod lent;
pub mod moore;
pub mod reporting;
pub mod running;
pub mod shrinking;
pub mod splitting;
pub mod telling;
pub mod tuned;
