// The splitting: the fresh lists, the published step taken literally, and runs of it.
// Rests on automaton.rs, layering.rs for layer 0, and lent.rs.

use super::automaton::Automaton;
use super::file::{refuse, Refusal};
use super::layering::layer_0;
use super::lent::{clear, demand_room, demand_work};

pub const MOST_TAKES: usize = 65_535;

/// Takes made and entries looked at.
#[derive(Clone, Copy, Debug, PartialEq, Eq)]
pub struct Run {
    pub takes: usize,
    pub entries: usize,
}

pub fn fresh(file: &[u8], classes: &mut [u16], pending: &mut [u16]) -> Result<(), Refusal> {
    let automaton = Automaton::read(file)?;
    let states = automaton.states;
    demand_room(classes.len().min(pending.len()), states)?;
    let (classes, pending) = (&mut classes[..states], &mut pending[..states]);
    for (class, name) in classes.iter_mut().zip(layer_0(&automaton)) {
        *class = name as u16;
    }
    pending.fill(0);
    let of_mark = |mark| (0..states).filter(move |&state| automaton.mark(state) == mark);
    if let (Some(accepting), Some(other)) = (of_mark(1).next(), of_mark(0).next()) {
        let waiting = match of_mark(1).count() <= of_mark(0).count() {
            true => accepting,
            false => other,
        };
        pending[waiting] = automaton.signs as u16;
    }
    Ok(())
}

pub fn run(
    file: &[u8],
    budget: usize,
    classes: &mut [u16],
    pending: &mut [u16],
    work: &mut [u16],
) -> Result<Run, Refusal> {
    let automaton = judge_lent(file, classes, pending, work)?;
    let (classes, pending) = (
        &mut classes[..automaton.states],
        &mut pending[..automaton.states],
    );
    let mut run = Run {
        takes: 0,
        entries: 0,
    };
    while run.takes < budget.min(MOST_TAKES) {
        let Some(entries) = take(&automaton, classes, pending) else {
            break;
        };
        run.takes += 1;
        run.entries += entries;
    }
    Ok(run)
}

/// The refusals of a run; the work slice is cleared unless it is too short or a list is ill formed.
pub fn judge_lent<'a>(
    file: &'a [u8],
    classes: &[u16],
    pending: &[u16],
    work: &mut [u16],
) -> Result<Automaton<'a>, Refusal> {
    let automaton = Automaton::read(file)?;
    demand_work(work, automaton.states)?;
    let room = demand_room(classes.len().min(pending.len()), automaton.states);
    if room.is_ok() {
        judge_lists(&automaton, classes, pending)?;
    }
    clear(work, automaton.states);
    room.map(|()| automaton)
}

fn judge_lists(automaton: &Automaton, classes: &[u16], pending: &[u16]) -> Result<(), Refusal> {
    let well_formed_at = |state: &usize| {
        let class = usize::from(classes[*state]);
        class <= *state
            && usize::from(classes[class]) == class
            && usize::from(pending[*state]) <= automaton.signs
            && (pending[*state] == 0 || class == *state)
    };
    match (0..automaton.states).find(|state| !well_formed_at(state)) {
        Some(state) => refuse(13, state),
        None => Ok(()),
    }
}

/// One take on lists of n numbers: the entries looked at; none where nothing waits.
fn take(automaton: &Automaton, classes: &mut [u16], pending: &mut [u16]) -> Option<usize> {
    let taken = pending.iter().position(|&waiting| waiting != 0)?;
    pending[taken] -= 1;
    let sign = usize::from(pending[taken]);
    let mut parts = vec![[vec![], vec![]]; automaton.states];
    let mut entries = 0;
    for state in 0..automaton.states {
        let next = automaton.next(state, sign);
        let leads_in = usize::from(classes[next]) == taken;
        entries += usize::from(leads_in);
        parts[usize::from(classes[state])][usize::from(leads_in)].push(state);
    }
    for [apart, leading_in] in parts {
        if let (Some(least_apart), Some(least_leading)) = (apart.first(), leading_in.first()) {
            let (kept, named) = match least_apart < least_leading {
                true => (apart, leading_in),
                false => (leading_in, apart),
            };
            split(automaton.signs, &kept, &named, classes, pending);
        }
    }
    Some(entries)
}

/// Both parts are in rising order; the first keeps the class's name.
fn split(signs: usize, kept: &[usize], named: &[usize], classes: &mut [u16], pending: &mut [u16]) {
    let (p, r) = (kept[0], named[0]);
    for &state in named {
        classes[state] = r as u16;
    }
    if kept.len() <= named.len() {
        pending[r] = pending[p];
        pending[p] = signs as u16;
    } else {
        pending[r] = signs as u16;
    }
}
