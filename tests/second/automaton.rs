// The automaton of an accepted file, read where it stands.
// Rests on file.rs.

use super::file::{judge, number, Refusal};

#[derive(Clone, Copy, Debug)]
pub struct Automaton<'a> {
    pub states: usize,
    pub signs: usize,
    pub start: usize,
    marks: &'a [u8],
    entries: &'a [[u8; 2]],
}

impl Automaton<'_> {
    pub fn read(file: &[u8]) -> Result<Automaton<'_>, Refusal> {
        let table = judge(file)?;
        let [_, marks, next_states] = table.bodies;
        Ok(Automaton {
            states: table.states,
            signs: table.signs,
            start: table.start,
            marks: marks.of(file),
            entries: next_states.of(file).as_chunks().0,
        })
    }

    pub fn mark(&self, state: usize) -> u8 {
        self.marks[state]
    }

    pub fn next(&self, state: usize, sign: usize) -> usize {
        number(self.entries[state * self.signs + sign])
    }

    /// The next state of each state under a sign.
    pub fn column(&self, sign: usize) -> impl Iterator<Item = usize> + '_ {
        let entries = self.entries[sign..].iter().step_by(self.signs);
        entries.map(|&entry| number(entry))
    }
}
