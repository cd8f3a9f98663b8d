// The layers of a table and its classes, straight from their definition.
// Rests on automaton.rs and lent.rs.

use super::automaton::Automaton;
use super::file::Refusal;
use super::lent::{clear, demand_room, demand_work};

/// How many classes there are, and the rounds.
#[derive(Clone, Copy, Debug, PartialEq, Eq)]
pub struct Layered {
    pub classes: usize,
    pub rounds: usize,
}

pub fn layers(file: &[u8], work: &mut [u16], classes: &mut [u16]) -> Result<Layered, Refusal> {
    layers_by(partition, file, work, classes)
}

/// The classes and the rounds come from the given call.
pub fn layers_by(
    partition: impl Fn(&Automaton) -> (Vec<usize>, usize),
    file: &[u8],
    work: &mut [u16],
    classes: &mut [u16],
) -> Result<Layered, Refusal> {
    let automaton = Automaton::read(file)?;
    demand_work(work, automaton.states)?;
    clear(work, automaton.states);
    demand_room(classes.len(), automaton.states)?;
    let (names, rounds) = partition(&automaton);
    for (class, &name) in classes.iter_mut().zip(&names) {
        *class = name as u16;
    }
    Ok(Layered {
        classes: count(&names),
        rounds,
    })
}

/// The class name of each state, and the rounds.
pub fn partition(automaton: &Automaton) -> (Vec<usize>, usize) {
    let mut layer = layer_0(automaton);
    let mut rounds = 0;
    loop {
        let following = layer_after(automaton, &layer);
        if following == layer {
            return (layer, rounds);
        }
        layer = following;
        rounds += 1;
    }
}

/// A class is counted at the state it is named by.
pub fn count(names: &[usize]) -> usize {
    let named = |&(state, &name): &(usize, &usize)| state == name;
    names.iter().enumerate().filter(named).count()
}

pub fn layer_0(automaton: &Automaton) -> Vec<usize> {
    named_by_least(automaton.states, |first, second| {
        automaton.mark(first) == automaton.mark(second)
    })
}

fn layer_after(automaton: &Automaton, layer: &[usize]) -> Vec<usize> {
    let next = |state, sign| layer[automaton.next(state, sign)];
    named_by_least(automaton.states, |first, second| {
        layer[first] == layer[second]
            && (0..automaton.signs).all(|sign| next(first, sign) == next(second, sign))
    })
}

/// For each state the least one that it is alike to.
fn named_by_least(states: usize, alike: impl Fn(usize, usize) -> bool) -> Vec<usize> {
    (0..states)
        .map(|state| {
            (0..state)
                .find(|&least| alike(least, state))
                .unwrap_or(state)
        })
        .collect()
}
