// The tests of the package's calls, made for valgrind: one module of tests a subject.
// Rests on the package, and on the tables of the project's tests/.

#[allow(dead_code)]
#[path = "../../tests/generate.rs"]
mod generate;

mod asking;
mod call;
mod damage;
mod lent;
mod rooms;
mod samples;
