// The rules for lent memory: how long it has to be, and what is cleared.
// Rests on file.rs.

use super::file::{refuse, Refusal};

/// The numbers of a work slice that a call on so many states may use.
pub fn work_length(states: usize) -> usize {
    16 * states
}

pub fn demand_work(work: &[u16], states: usize) -> Result<(), Refusal> {
    match work.len() < work_length(states) {
        true => refuse(11, work_length(states)),
        false => Ok(()),
    }
}

pub fn demand_room(length: usize, needed: usize) -> Result<(), Refusal> {
    match length < needed {
        true => refuse(12, needed),
        false => Ok(()),
    }
}

/// Clears what a call may have used.
pub fn clear(work: &mut [u16], states: usize) {
    work[..work_length(states)].fill(0);
}
