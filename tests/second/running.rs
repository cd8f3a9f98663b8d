// Running a word, and a line by the sign plan.
// Rests on automaton.rs.

use super::automaton::Automaton;
use super::file::{refuse, Refusal};

const SIGNS_OF_LINES: usize = 47;

/// The mark of the last state.
pub fn run_word(file: &[u8], word: &[u8]) -> Result<u8, Refusal> {
    let automaton = Automaton::read(file)?;
    let signs = automaton.signs;
    if let Some(index) = word.iter().position(|&sign| usize::from(sign) >= signs) {
        return refuse(10, index);
    }
    let last = last_state(&automaton, automaton.start, word);
    Ok(automaton.mark(last))
}

/// The mark of the last state, the bytes being signs by the plan.
pub fn run_line(file: &[u8], line: &[u8]) -> Result<u8, Refusal> {
    let automaton = Automaton::read(file)?;
    if automaton.signs != SIGNS_OF_LINES {
        return refuse(9, 0);
    }
    let plan: [usize; 256] = std::array::from_fn(|byte| planned(byte as u8));
    let mut state = automaton.start;
    for &byte in line {
        state = automaton.next(state, plan[usize::from(byte)]);
    }
    Ok(automaton.mark(state))
}

/// From a state; every sign of the word is one of the automaton's.
pub fn last_state(automaton: &Automaton, from: usize, word: &[u8]) -> usize {
    let mut state = from;
    for &sign in word {
        state = automaton.next(state, usize::from(sign));
    }
    state
}

/// The sign of a byte.
pub fn planned(byte: u8) -> usize {
    match byte {
        b'0'..=b'9' => usize::from(byte - b'0'),
        b'A'..=b'Z' => usize::from(byte - b'A') + 10,
        b'a'..=b'z' => usize::from(byte - b'a') + 10,
        b' ' => 36,
        b'+' => 37,
        b'-' => 38,
        b'.' => 39,
        b'/' => 40,
        b',' => 41,
        b':' => 42,
        b'=' => 43,
        13 => 44,
        10 => 45,
        _ => 46,
    }
}
