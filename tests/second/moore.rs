// The same classes and rounds as layering.rs, for timing: each round one pass over the n x k next
// states on arrays, and equal rows found by their hashes. Rests on automaton.rs.

use super::automaton::Automaton;
use super::layering::{count, layer_0};

const NO_STATE: usize = usize::MAX;

pub fn partition(automaton: &Automaton) -> (Vec<usize>, usize) {
    let width = automaton.signs + 1;
    let next_states: Vec<usize> = (0..automaton.states)
        .flat_map(|state| {
            let next = (0..automaton.signs).map(move |sign| automaton.next(state, sign));
            std::iter::once(state).chain(next)
        })
        .collect();
    let mut rows = vec![0; next_states.len()];
    let mut slots = vec![NO_STATE; (2 * automaton.states).next_power_of_two()];
    let mut layer = layer_0(automaton);
    let mut classes = count(&layer);
    let mut rounds = 0;
    loop {
        for (entry, &state) in rows.iter_mut().zip(&next_states) {
            *entry = layer[state] as u16;
        }
        slots.fill(NO_STATE);
        layer = names_of_rows(&rows, width, &mut slots);
        let following = count(&layer);
        if following == classes {
            return (layer, rounds);
        }
        classes = following;
        rounds += 1;
    }
}

/// Each row is named by the first that equals it.
fn names_of_rows(rows: &[u16], width: usize, slots: &mut [usize]) -> Vec<usize> {
    let mut names = Vec::with_capacity(rows.len() / width);
    for (state, row) in rows.chunks_exact(width).enumerate() {
        let mut slot = hash(row) as usize % slots.len();
        let name = loop {
            match slots[slot] {
                NO_STATE => break state,
                name if rows[name * width..][..width] == *row => break name,
                _ => slot = (slot + 1) % slots.len(),
            }
        };
        slots[slot] = name;
        names.push(name);
    }
    names
}

fn hash(row: &[u16]) -> u64 {
    let mix =
        |hash: u64, &entry: &u16| (hash ^ u64::from(entry)).wrapping_mul(0x9E37_79B9_7F4A_7C15);
    row.iter().fold(1, mix) >> 32
}
