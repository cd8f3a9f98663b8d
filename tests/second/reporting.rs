// The report on a file, as the report program prints it.
// Rests on automaton.rs, layering.rs, splitting.rs and shrinking.rs.

use super::automaton::Automaton;
use super::file::Refusal;
use super::layering::{count, partition};
use super::lent::work_length;
use super::shrinking::reachable_classes;
use super::splitting::{fresh, run, Run, MOST_TAKES};

pub fn report(file: &[u8]) -> String {
    found(file).unwrap_or_else(refused)
}

/// The one line of a refused file.
pub fn refused(Refusal { number, place }: Refusal) -> String {
    format!("refused {number} {place}\n")
}

fn found(file: &[u8]) -> Result<String, Refusal> {
    let automaton = Automaton::read(file)?;
    let (states, signs, start) = (automaton.states, automaton.signs, automaton.start);
    let (names, rounds) = partition(&automaton);
    let classes = count(&names);
    let Run { takes, entries } = full_splitting(file, states)?;
    let rows = reachable_classes(&automaton, &names).len();
    let mut report = format!("sizes {states} {signs} {start}\n");
    report += &format!("found {classes} {rounds} {takes} {entries} {rows}\n");
    for (state, name) in names.iter().enumerate() {
        report += &format!("{state} {name}\n");
    }
    Ok(report)
}

/// From fresh.
fn full_splitting(file: &[u8], states: usize) -> Result<Run, Refusal> {
    let (mut classes, mut pending) = (vec![0; states], vec![0; states]);
    fresh(file, &mut classes, &mut pending)?;
    let mut work = vec![0; work_length(states)];
    run(file, MOST_TAKES, &mut classes, &mut pending, &mut work)
}
