// The shrunk file: one row for each class that holds a state reachable from the start.
// Rests on automaton.rs, on layering.rs for the classes, and on lent.rs.

use super::automaton::Automaton;
use super::file::Refusal;
use super::layering::partition;
use super::lent::{clear, demand_room, demand_work};

/// The rows of the shrunk file, and its length.
#[derive(Clone, Copy, Debug, PartialEq, Eq)]
pub struct Shrunk {
    pub rows: usize,
    pub length: usize,
}

pub fn shrink(file: &[u8], work: &mut [u16], out: &mut [u8]) -> Result<Shrunk, Refusal> {
    shrink_by(partition, file, work, out)
}

/// The classes come from the given call, with the rounds.
pub fn shrink_by(
    partition: impl Fn(&Automaton) -> (Vec<usize>, usize),
    file: &[u8],
    work: &mut [u16],
    out: &mut [u8],
) -> Result<Shrunk, Refusal> {
    let automaton = Automaton::read(file)?;
    demand_work(work, automaton.states)?;
    clear(work, automaton.states);
    let (classes, _) = partition(&automaton);
    let rows = reachable_classes(&automaton, &classes);
    let shrunk = shrunk_file(&automaton, &classes, &rows);
    demand_room(out.len(), shrunk.len())?;
    out[..shrunk.len()].copy_from_slice(&shrunk);
    Ok(Shrunk {
        rows: rows.len(),
        length: shrunk.len(),
    })
}

/// The names of the classes that hold a reachable state, rising.
pub fn reachable_classes(automaton: &Automaton, classes: &[usize]) -> Vec<usize> {
    let mut reached = vec![false; automaton.states];
    let mut holding = vec![false; automaton.states];
    let mut to_visit = vec![automaton.start];
    while let Some(state) = to_visit.pop() {
        if !std::mem::replace(&mut reached[state], true) {
            holding[classes[state]] = true;
            to_visit.extend((0..automaton.signs).map(|sign| automaton.next(state, sign)));
        }
    }
    (0..automaton.states)
        .filter(|&name| holding[name])
        .collect()
}

pub fn shrunk_file(automaton: &Automaton, classes: &[usize], rows: &[usize]) -> Vec<u8> {
    let row_of = |state: usize| {
        rows.binary_search(&classes[state])
            .expect("a reachable class")
    };
    let mut entries = Vec::new();
    for &name in rows {
        entries.extend((0..automaton.signs).map(|sign| row_of(automaton.next(name, sign))));
    }
    let mut file = field(
        1,
        &numbers(&[rows.len(), automaton.signs, row_of(automaton.start)]),
    );
    let marks: Vec<u8> = rows.iter().map(|&name| automaton.mark(name)).collect();
    file.extend(field(2, &marks));
    file.extend(field(3, &numbers(&entries)));
    file
}

fn numbers(list: &[usize]) -> Vec<u8> {
    list.iter()
        .flat_map(|&number| (number as u16).to_be_bytes())
        .collect()
}

fn field(tag: u8, body: &[u8]) -> Vec<u8> {
    [&[tag], &(body.len() as u16).to_be_bytes()[..], body].concat()
}
