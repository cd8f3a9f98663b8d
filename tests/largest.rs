// Tables at the limits of their sizes, one of each shape and more.
// Rests on generate.rs.

use crate::generate::{
    all_apart, blank, chain, copies, halving, mostly_unreachable, one_class, renamed, scattered,
    Random, Table,
};

pub const LARGEST_TABLES: usize = 11;

/// Their states in another order. First the chain of the most rounds, then two of one class.
pub fn largest_tables(random: &mut Random) -> [Table; LARGEST_TABLES] {
    [
        chain(random, 1_024, 1),
        blank(500, 64),
        one_class(random, 1_024, 31),
        all_apart(random, 1_024, 31),
        scattered(random, 1_000, 32),
        scattered(random, 500, 64),
        scattered(random, 680, 47),
        mostly_unreachable(random, 1_024, 31),
        copies(random, 1_024, 31),
        copies(random, 680, 47),
        halving(31),
    ]
    .map(|table| renamed(random, &table))
}
