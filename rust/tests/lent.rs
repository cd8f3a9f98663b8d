// Lent memory: allocations of exactly the lent length, so that valgrind sees a byte too far, what they
// held before a call, and what the paper lets a call leave in them. Rests on generate.rs.

use std::fmt::Debug;

use crate::generate::Random;

/// Numbers, or bytes, of each lent slice.
#[derive(Clone, Copy, Debug, Default, PartialEq, Eq)]
pub struct Room {
    pub work: usize,
    pub classes: usize,
    pub pending: usize,
    pub bytes: usize,
}

/// What lent memory holds before a call.
#[derive(Clone, Copy, Debug)]
pub enum Leftover {
    Ones,
    Random,
}

pub const LEFTOVERS: [Leftover; 2] = [Leftover::Ones, Leftover::Random];

impl Leftover {
    fn numbers(self) -> impl FnMut() -> u64 {
        let mut random = Random::new(1);
        move || match self {
            Leftover::Ones => u64::MAX,
            Leftover::Random => random.next(),
        }
    }
}

pub struct Lent<T> {
    before: Box<[T]>,
    pub slice: Box<[T]>,
}

impl<T: Copy + PartialEq + Debug> Lent<T> {
    fn new(length: usize, mut number: impl FnMut() -> T) -> Lent<T> {
        let before: Box<[T]> = (0..length).map(|_| number()).collect();
        Lent {
            slice: before.clone(),
            before,
        }
    }

    /// As far as there is room.
    fn hold(&mut self, front: &[T]) {
        let room = front.len().min(self.slice.len());
        self.slice[..room].copy_from_slice(&front[..room]);
        self.before.copy_from_slice(&self.slice);
    }

    fn demand_kept_beyond(&self, written: usize) {
        assert_eq!(self.slice[written..], self.before[written..]);
    }
}

pub struct Memory {
    pub work: Lent<u16>,
    pub classes: Lent<u16>,
    pub pending: Lent<u16>,
    pub bytes: Lent<u8>,
}

impl Memory {
    pub fn new(room: Room, leftover: Leftover) -> Memory {
        let mut number = leftover.numbers();
        Memory {
            work: Lent::new(room.work, || number() as u16),
            classes: Lent::new(room.classes, || number() as u16),
            pending: Lent::new(room.pending, || number() as u16),
            bytes: Lent::new(room.bytes, || number() as u8),
        }
    }

    pub fn hold_lists(&mut self, classes: &[u16], pending: &[u16]) {
        self.classes.hold(classes);
        self.pending.hold(pending);
    }

    /// Demands that the front of the work slice is cleared and that nothing beyond the fronts has changed.
    pub fn demand_written(&self, written: Room) {
        assert!(self.work.slice[..written.work]
            .iter()
            .all(|&left| left == 0));
        self.work.demand_kept_beyond(written.work);
        self.classes.demand_kept_beyond(written.classes);
        self.pending.demand_kept_beyond(written.pending);
        self.bytes.demand_kept_beyond(written.bytes);
    }
}
