// The phases of the shrunk file by their instructions: judging, classes, rows and writing.
// Rests on the lines of calls.rs, on tables.rs and on tests/.

use std::hint::black_box;

use crate::cases::Case;
use crate::counting::Count;
use crate::lines::Line;
use crate::parts::interface::shrinking::shrink;
use crate::parts::second::automaton::Automaton;
use crate::parts::second::shrinking::{reachable_classes, shrunk_file};
use crate::tables::{find, row, Cost};

pub const NAME: &str = "phases";

/// The functions of the library, and of the second program, that aren't folded into their callers.
const JUDGE: &str = "table::judging::judge";
const RUN_TAKES: &str = "splitting::runs::run_takes";
const SECOND_JUDGE: &str = "costs::parts::second::file::judge";
const PARTITION: &str = "costs::parts::second::moore::partition";

const NO_ROOM: usize = 12;

/// The library's call without room, and the second program's making and copying of the file, which
/// is as long as the room that the first asks for.
pub fn writing(case: &Case) -> Line<'_> {
    let mut work = case.work();
    let automaton = Automaton::read(&case.file).expect("an accepted file");
    let rows = reachable_classes(&automaton, &case.classes);
    let mut out = vec![0; case.file.len()];
    let line = Line::new(
        case.name,
        &[NAME],
        move || {
            let shrunk = shrink(black_box(&case.file), &mut work, &mut []);
            [shrunk.number, shrunk.place, 0]
        },
        move || {
            let shrunk = shrunk_file(black_box(&automaton), &case.classes, &rows);
            out[..shrunk.len()].copy_from_slice(&shrunk);
            black_box(&out);
            [NO_ROOM, shrunk.len(), 0]
        },
    );
    line.untimed()
}

/// Prints the phases of a case, all of whose lines must have been counted.
pub fn print(case: &Case, costs: &[Cost]) {
    let cost = |call| find(costs, case.name, call);
    let counts = |call| cost(call).counts.as_ref().expect("a counted line");
    let [shrink, fresh, writing] = ["shrink", "fresh", NAME].map(counts);
    let phases = [
        library(&shrink[0], &fresh[0], &writing[0]),
        second(&shrink[1], &writing[1]),
    ];
    let [judging, classes, writing] = [0, 1, 2].map(|phase| phases.map(|phases| phases[phase]));
    let wholes = shrink.each_ref().map(|count| count.whole);
    let rows = [0, 1].map(|side| wholes[side] - phases[side].iter().sum::<f64>());
    row(case.name, "judging", cost("judge").times, Some(judging));
    row(case.name, "classes", None, Some(classes));
    row(case.name, "rows", None, Some(rows));
    row(case.name, "writing", None, Some(writing));
    row(case.name, "whole", cost("shrink").times, Some(wholes));
}

/// Judging, classes and writing. The laying out of the fresh lists is folded into the call; it is
/// counted in a call of its own, less its judging.
fn library(shrink: &Count, fresh: &Count, no_room: &Count) -> [f64; 3] {
    let lists = fresh.whole - fresh.within(JUDGE);
    [
        shrink.within(JUDGE),
        shrink.within(RUN_TAKES) + lists,
        shrink.whole - no_room.whole,
    ]
}

fn second(shrink: &Count, writing: &Count) -> [f64; 3] {
    [
        shrink.within(SECOND_JUDGE),
        shrink.within(PARTITION),
        writing.whole,
    ]
}
