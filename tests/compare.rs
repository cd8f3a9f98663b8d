// The comparison of the proved library and programs with the second program: one module of tests a
// subject. Rests on the library, linked as libwylgentip.a, and on the programs in crates/report/out and crates/shrink/out.

mod comparison;
mod damage;
mod every_call;
mod generate;
#[path = "../rust/src/interface/mod.rs"]
mod interface;
mod judging;
mod largest;
mod layering;
mod lent;
mod printed;
mod programs;
mod running;
mod second;
mod shrinking;
mod splitting;
mod telling;

const _: () = assert!(judging::LEAST_FILES >= 200_000);
const _: () = assert!(every_call::LEAST_TABLES >= 100_000);
