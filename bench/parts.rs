// The modules that the benchmarks rest on, each of which uses some of them.
// Rests on tests/ and on the calls of rust/src/interface/.

#[path = "../tests/generate.rs"]
pub mod generate;
#[path = "../rust/src/interface/mod.rs"]
pub mod interface;
#[path = "../tests/second/mod.rs"]
pub mod second;
