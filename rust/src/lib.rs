//! Wylgentip, the proved calls on recogniser tables, for Rust.
//!
//! Every call takes any bytes and any lengths, ends, and allocates nothing: the caller lends the file,
//! the results and the work slice. What lent memory held before changes no answer.
//!
//! **Refusals.** A call that refuses gives a [`Refusal`], a number and a place. A file is judged whole by
//! every call that takes one, and refused with 1 to 8 before anything else; the functions below name what
//! they refuse after that. `include/wylgentip.h` lists the numbers and their places.
//!
//! **Lent memory.** After refusals 1 to 11 and 13 it is as it was. After 12 the first 16 × n numbers of the
//! work slice, where there is one, are 0, and nothing else has changed. They are 0 after an accepted call too;
//! beyond them, and beyond the end of a result, nothing has changed.
//!
//! ```
//! // T1 of the paper: 5 states, of which 2 and 3 accept, and 2 signs.
//! let file = [
//!     1, 0, 6, 0, 5, 0, 2, 0, 0, 2, 0, 5, 0, 0, 1, 1, 0, 3, 0, 20, 0, 1, 0, 0, 0, 2, 0, 0, 0, 3, 0, 2, 0,
//!     2, 0, 3, 0, 3, 0, 0,
//! ];
//! let sizes = wylgentip::judge(&file)?;
//! assert_eq!((sizes.states, sizes.signs, sizes.start), (5, 2, 0));
//! assert!(wylgentip::run_word(&file, &[0, 0])?);
//!
//! let mut work = vec![0; sizes.work()];
//! let mut out = vec![0; file.len()];
//! let shrunk = wylgentip::shrink(&file, &mut work, &mut out)?;
//! assert_eq!(shrunk.rows, 3);
//! assert!(wylgentip::run_word(shrunk.file, &[0, 0])?);
//!
//! let refusal = wylgentip::judge(&file[..39]).unwrap_err();
//! assert_eq!(refusal.to_string(), "refused 1 39");
//! # Ok::<(), wylgentip::Refusal>(())
//! ```
#![no_std]
#![deny(unsafe_code, missing_docs)]

// Rests on the calls of interface/. The comparison with the second program shares them, and it alone
// builds answers by their constructors.
#[allow(dead_code, unsafe_code)]
mod interface;

use core::error::Error;
use core::fmt::{self, Display, Formatter};

use interface::{judging, layering, running, shrinking, splitting, telling};

/// Why a call refused: the number of the refusal, 1 to 13, and its place. Shown as `refused 8 38`.
#[derive(Clone, Copy, Debug, PartialEq, Eq)]
pub struct Refusal {
    /// Which refusal it is.
    pub number: usize,
    /// Where, or how much is needed: a place in the file, an index, a length or a state, by the number.
    pub place: usize,
}

impl Display for Refusal {
    fn fmt(&self, formatter: &mut Formatter) -> fmt::Result {
        write!(formatter, "refused {} {}", self.number, self.place)
    }
}

impl Error for Refusal {}

/// Number 0 stands for an accepted call.
fn accepted(number: usize, place: usize) -> Result<(), Refusal> {
    match number {
        0 => Ok(()),
        _ => Err(Refusal { number, place }),
    }
}

/// The sizes of an accepted file.
#[derive(Clone, Copy, Debug, PartialEq, Eq)]
pub struct Sizes {
    /// n, the number of states: 1 to 1,024.
    pub states: usize,
    /// k, the number of signs: 1 to 64.
    pub signs: usize,
    /// The state that words are run from.
    pub start: usize,
}

impl Sizes {
    /// The numbers that a work slice needs: 16 × n.
    pub const fn work(&self) -> usize {
        16 * self.states
    }
}

/// Judges the whole file. Refuses with 1 to 8. Nothing is written.
pub fn judge(file: &[u8]) -> Result<Sizes, Refusal> {
    let judged = judging::judge(file);
    accepted(judged.number, judged.place)?;
    Ok(Sizes {
        states: judged.states,
        signs: judged.signs,
        start: judged.start,
    })
}

/// The body of field 1, 2 or 3, as the part of the lent file where it stands. For a file that is refused,
/// and for any other number, the empty part at the file's start; the refusal is had from [`judge`].
/// Nothing is written.
pub fn field(file: &[u8], number: usize) -> &[u8] {
    let part = judging::field(file, number);
    &file[part.place..][..part.length]
}

fn ran(ran: running::Ran) -> Result<bool, Refusal> {
    accepted(ran.number, ran.place)?;
    Ok(ran.kind == 1)
}

/// Runs a word, one sign a byte, from the start, and says whether the last state accepts. Refuses with 10 at
/// the index of the first sign that is k or more. Nothing is written.
pub fn run_word(file: &[u8], word: &[u8]) -> Result<bool, Refusal> {
    ran(running::run_word(file, word))
}

/// Runs a line of bytes, each turned into a sign by the sign plan, from the start, and says whether the last
/// state accepts. Refuses with 9 at 0 where k isn't 47. Nothing is written.
pub fn run_line(file: &[u8], line: &[u8]) -> Result<bool, Refusal> {
    ran(running::run_line(file, line))
}

/// What the classes by layers come to.
#[derive(Clone, Copy, Debug, PartialEq, Eq)]
pub struct Layers {
    /// m, the number of classes.
    pub classes: usize,
    /// r, the least i at which layers i and i + 1 are equal.
    pub rounds: usize,
}

/// The classes by layers: the first n numbers of `classes` are then the names of the states' classes, each
/// the least state of its class. Refuses with 11 (`work`), then 12 at n (`classes`). `work` is left cleared.
pub fn layers(file: &[u8], work: &mut [u16], classes: &mut [u16]) -> Result<Layers, Refusal> {
    let layered = layering::layers(file, work, classes);
    accepted(layered.number, layered.place)?;
    Ok(Layers {
        classes: layered.classes,
        rounds: layered.rounds,
    })
}

/// What is told of two states.
#[derive(Clone, Copy, Debug, PartialEq, Eq)]
pub enum Told<'a> {
    /// No word ends in different marks from them.
    Alike,
    /// The shortest word that does, the first in sign order among those, one sign a byte: the front of the
    /// lent bytes.
    Apart(&'a [u8]),
}

/// The word that tells two states apart, written at the front of `word`; it has at most n − 2 signs, and two
/// states that are alike need no room. Refuses with 10 at 0 (`first`) or 1 (`second`), then 11 (`work`), then
/// 12 at the word's length (`word`). `work` is left cleared.
pub fn tell<'a>(
    file: &[u8],
    first: usize,
    second: usize,
    work: &mut [u16],
    word: &'a mut [u8],
) -> Result<Told<'a>, Refusal> {
    let told = telling::tell(file, first, second, work, word);
    accepted(told.number, told.place)?;
    Ok(match told.apart {
        0 => Told::Alike,
        _ => Told::Apart(&word[..told.length]),
    })
}

/// The fresh lists of a splitting, in the first n numbers of `classes` and `pending`: the classes by marks;
/// where both marks occur the accepting class waits with all signs when it isn't larger than the other, else
/// the other does. Refuses with 12 at n.
pub fn fresh(file: &[u8], classes: &mut [u16], pending: &mut [u16]) -> Result<(), Refusal> {
    let started = splitting::fresh(file, classes, pending);
    accepted(started.number, started.place)
}

/// What a run did.
#[derive(Clone, Copy, Debug, PartialEq, Eq)]
pub struct Run {
    /// Takes made in this call.
    pub takes: usize,
    /// Entries looked at in this call.
    pub entries: usize,
}

/// Takes on the first n numbers of the two lists until the budget is used or nothing waits; a budget above
/// 65,535 counts as 65,535, which always is enough. The lists may come from anywhere. Refuses with 11
/// (`work`), then 12 at n (the lists), then 13 at the least state q where they aren't well formed:
/// `classes[q]` ≤ q, `classes[classes[q]]` = `classes[q]`, `pending[q]` ≤ k, and `pending[q]` = 0 unless
/// `classes[q]` = q. `work` is left cleared.
pub fn run(
    file: &[u8],
    budget: usize,
    classes: &mut [u16],
    pending: &mut [u16],
    work: &mut [u16],
) -> Result<Run, Refusal> {
    let run = splitting::run(file, budget, classes, pending, work);
    accepted(run.number, run.place)?;
    Ok(Run {
        takes: run.takes,
        entries: run.entries,
    })
}

/// The shrunk file.
#[derive(Clone, Copy, Debug, PartialEq, Eq)]
pub struct Shrunk<'a> {
    /// Its states: the classes that hold a state reachable from the start.
    pub rows: usize,
    /// Its 15 + rows + 2 × rows × k bytes: the front of the lent bytes.
    pub file: &'a [u8],
}

/// The shrunk file, written at the front of `out`: it accepts exactly the words the given file does, no file
/// over the same signs with fewer states does, and it shrinks to itself. Refuses with 11 (`work`), then 12 at
/// its length (`out`), which is never above that of the given file. `work` is left cleared.
pub fn shrink<'a>(file: &[u8], work: &mut [u16], out: &'a mut [u8]) -> Result<Shrunk<'a>, Refusal> {
    let shrunk = shrinking::shrink(file, work, out);
    accepted(shrunk.number, shrunk.place)?;
    Ok(Shrunk {
        rows: shrunk.rows,
        file: &out[..shrunk.length],
    })
}
