// Memory lent to both programs: the same leftovers in it and around it, and what differs after.
// Rests on generate.rs.

use std::fmt::Debug;

use crate::generate::Random;

/// Numbers kept on either side of a lent slice, which no call may change.
const MARGIN: usize = 8;

pub trait Leftover: Copy + PartialEq + Debug {
    fn leftover(bits: u16) -> Self;
}

impl Leftover for u8 {
    fn leftover(bits: u16) -> u8 {
        bits as u8
    }
}

impl Leftover for u16 {
    fn leftover(bits: u16) -> u16 {
        bits
    }
}

/// All three begin equal, and end in margins.
pub struct Lent<T> {
    before: Vec<T>,
    library: Vec<T>,
    second: Vec<T>,
}

impl<T: Leftover> Lent<T> {
    pub fn new(random: &mut Random, length: usize) -> Lent<T> {
        Lent::holding(random, &[], length)
    }

    /// The front of the lent slice is as given, as far as it has room.
    pub fn holding(random: &mut Random, front: &[T], length: usize) -> Lent<T> {
        let mask = random.one_of(&[1, 15, 65_535]);
        let mut before: Vec<T> = (0..length + 2 * MARGIN)
            .map(|_| T::leftover(random.next() as u16 & mask))
            .collect();
        let room = front.len().min(length);
        before[MARGIN..MARGIN + room].copy_from_slice(&front[..room]);
        Lent {
            library: before.clone(),
            second: before.clone(),
            before,
        }
    }

    pub fn library(&mut self) -> &mut [T] {
        inner(&mut self.library)
    }

    pub fn second(&mut self) -> &mut [T] {
        inner(&mut self.second)
    }

    /// What the library left in the lent slice.
    pub fn left(&self) -> &[T] {
        &self.library[MARGIN..self.library.len() - MARGIN]
    }

    /// What differs among the two programs, or from before beyond the front that may change.
    pub fn difference(&self, may_change: usize) -> Option<String> {
        let may_change = MARGIN..MARGIN + may_change;
        let index = (0..self.before.len()).find(|index| {
            let kept = may_change.contains(index) || self.library[*index] == self.before[*index];
            !kept || self.library[*index] != self.second[*index]
        })?;
        Some(format!(
            "at {} the library left {:?}, the second program {:?}, and {:?} was there before",
            index as isize - MARGIN as isize,
            self.library[index],
            self.second[index],
            self.before[index]
        ))
    }
}

fn inner<T>(all: &mut [T]) -> &mut [T] {
    let end = all.len() - MARGIN;
    &mut all[MARGIN..end]
}

/// More than is needed, exactly that, one fewer, none, and more by nearly all of 16 bits.
pub fn rooms(needed: usize) -> [usize; 5] {
    [
        needed + 5,
        needed,
        needed.saturating_sub(1),
        0,
        needed + 65_535,
    ]
}

/// The number and place of 11 or 12 by the lengths of a work slice and of a result slice, that of
/// the result with the length it needs; zeros where both have room.
pub fn refusal_by_room(states: usize, work: usize, [result, needed]: [usize; 2]) -> (usize, usize) {
    match (work < 16 * states, result < needed) {
        (true, _) => (11, 16 * states),
        (false, true) => (12, needed),
        (false, false) => (0, 0),
    }
}

/// Mostly enough, now and then too short, and at times longer by nearly all of 16 bits.
pub fn any_room(random: &mut Random, needed: usize) -> usize {
    match random.below(64) {
        0 => needed + 65_535,
        1..=4 => 0,
        5..=8 => needed.saturating_sub(1),
        9..=12 => random.below(needed + 1),
        _ => enough(random, needed),
    }
}

pub fn enough(random: &mut Random, needed: usize) -> usize {
    needed + random.below(4) * random.below(12)
}
