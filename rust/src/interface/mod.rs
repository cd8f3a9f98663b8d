// Safe calls of the proved library: slices go in, a struct comes out; one module a subject.
// Rests on the C interface of include/wylgentip.h.

pub mod judging;
pub mod layering;
pub mod running;
pub mod shrinking;
pub mod splitting;
pub mod telling;
