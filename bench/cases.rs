// The tables that are measured.
// Rests on tests/generate.rs, and on the library for the classes.

use crate::parts::generate::{
    blank, chain, copies, encode, halving, renamed, scattered, t1, Random, Table,
};
use crate::parts::interface::layering::layers;

const SEED: u64 = 1;
pub const SIGNS_OF_LINES: usize = 47;

pub struct Case {
    pub name: &'static str,
    pub states: usize,
    pub signs: usize,
    pub file: Vec<u8>,
    /// The name of each state's class.
    pub classes: Vec<usize>,
}

impl Case {
    pub fn new(name: &'static str, table: &Table) -> Case {
        let (states, file) = (table.states(), encode(table));
        let (mut work, mut classes) = (vec![0; 16 * states], vec![0; states]);
        let layered = layers(&file, &mut work, &mut classes);
        assert_eq!(layered.number, 0, "{name} is refused");
        Case {
            name,
            states,
            signs: table.signs,
            file,
            classes: classes.into_iter().map(usize::from).collect(),
        }
    }

    /// A number for each state.
    pub fn list(&self) -> Vec<u16> {
        vec![0; self.states]
    }

    /// A work slice that is long enough.
    pub fn work(&self) -> Vec<u16> {
        vec![0; 16 * self.states]
    }
}

pub fn cases() -> Vec<Case> {
    let random = &mut Random::new(SEED);
    let mergeable = copies(random, 1_024, 31);
    vec![
        Case::new("random", &scattered(random, 1_024, 31)),
        Case::new("chain", &chain(random, 1_024, 31)),
        Case::new("mergeable", &renamed(random, &mergeable)),
        Case::new("halving", &halving(31)),
        Case::new("line-like", &line_like(random, 680)),
        Case::new("500x64", &scattered(random, 500, 64)),
        Case::new("12x4", &scattered(random, 12, 4)),
        Case::new("1000x32", &scattered(random, 1_000, 32)),
        Case::new("T1", &t1()),
    ]
}

/// 47 signs, of which five lead on from a state and the others to the state where all is lost.
fn line_like(random: &mut Random, states: usize) -> Table {
    let signs = SIGNS_OF_LINES;
    let lost = states - 1;
    let mut table = blank(states, signs);
    table.next_states.fill(lost as u16);
    for state in 0..lost {
        table.marks[state] = u8::from(random.below(8) == 0);
        for _ in 0..5 {
            let next = (state + random.below(20)).min(lost - 1);
            table.next_states[state * signs + random.below(signs)] = next as u16;
        }
    }
    table
}
