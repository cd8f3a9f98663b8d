// The tests of the classes by layers.
// Rests on comparison.rs and lent.rs, on the library and the second program, and on generate.rs.

use crate::comparison::{states_of, Comparison};
use crate::generate::{blank, chain, encode, renamed, small_table, t1, t2, t3, Random, Table};
use crate::interface::layering::{self as library, Layered};
use crate::largest::{largest_tables, LARGEST_TABLES};
use crate::lent::{any_room, enough, refusal_by_room, rooms, Lent};
use crate::second::automaton::Automaton;
use crate::second::layering as second;
use crate::second::moore;

const OF_THE_PAPER: usize = 4;
const OF_ALL_ROOMS: usize = 25 * 6;
const CHAINS: usize = 2 * 79;
const GENERATED: usize = 30_000;
const OF_BOTH_WAYS: u64 = 2_000;

/// The lengths of the work slice and of the class list.
type Lengths = [usize; 2];

/// Gives the library's answer, and its class list where there is one.
fn compare(
    random: &mut Random,
    comparison: &mut Comparison,
    file: &[u8],
    [work, classes]: Lengths,
) -> (Layered, Vec<u16>) {
    let kept = file.to_vec();
    let mut work = Lent::new(random, work);
    let mut classes = Lent::new(random, classes);
    let layered = library::layers(file, work.library(), classes.library());
    let second = match second::layers(file, work.second(), classes.second()) {
        Ok(layered) => Layered::accepted(layered.classes, layered.rounds),
        Err(refusal) => Layered::refused(refusal.number, refusal.place),
    };
    comparison.demand(file, format_args!("layers"), layered, second);
    let written = match layered.number {
        0 => states_of(file),
        _ => 0,
    };
    comparison.demand_lent(file, "class list", &classes, written);
    comparison.demand_work(file, &work, layered.number);
    comparison.demand_kept(&kept, "file", &kept, file);
    comparison.count("layers", layered.number);
    (layered, classes.left()[..written].to_vec())
}

/// With room enough, for an accepted table.
fn compare_table(
    random: &mut Random,
    comparison: &mut Comparison,
    table: &Table,
) -> (Layered, Vec<u16>) {
    let states = table.states();
    let lengths = [enough(random, 16 * states), enough(random, states)];
    let file = encode(table);
    let (layered, classes) = compare(random, comparison, &file, lengths);
    comparison.expect(&file, format_args!("the number"), layered.number, 0);
    let bounded = layered.rounds <= states.saturating_sub(2);
    comparison.expect(&file, format_args!("the bound on rounds"), bounded, true);
    (layered, classes)
}

#[test]
fn samples_of_the_paper() {
    let mut comparison = Comparison::new();
    let cases: [(Table, &[u16], usize, usize); 4] = [
        (t1(), &[0, 1, 2, 2, 1], 3, 1),
        (t2(), &[0, 1, 2, 3, 4, 4, 6, 6, 8], 7, 2),
        (t3(), &[0, 1, 2, 3, 4, 5], 6, 4),
        (blank(1, 1), &[0], 1, 0),
    ];
    for (table, classes, count, rounds) in cases {
        let found = compare_table(&mut Random::new(1), &mut comparison, &table);
        let expected = (Layered::accepted(count, rounds), classes.to_vec());
        comparison.expect(&encode(&table), format_args!("layers"), found, expected);
    }
    comparison.finish(OF_THE_PAPER);
}

/// Each length of one slice with each of the other.
#[test]
fn slices_of_each_length() {
    let comparison = Comparison::generated(20_000_000, 6, |random, comparison| {
        let file = encode(&small_table(random));
        let states = states_of(&file);
        for work in rooms(16 * states) {
            for classes in rooms(states) {
                let (layered, _) = compare(random, comparison, &file, [work, classes]);
                let found = (layered.number, layered.place);
                let expected = refusal_by_room(states, work, [classes, states]);
                comparison.expect(&file, format_args!("the refusal"), found, expected);
            }
        }
    });
    comparison.met([0, 11, 12], 25);
    comparison.finish(OF_ALL_ROOMS);
}

#[test]
fn chains_need_two_rounds_fewer_than_states() {
    let comparison = Comparison::generated(21_000_000, 2, |random, comparison| {
        for states in 2..=80 {
            let signs = random.between(1, 4);
            let mut table = chain(random, states, signs);
            if random.below(2) == 0 {
                table = renamed(random, &table);
            }
            let (layered, _) = compare_table(random, comparison, &table);
            let expected = Layered::accepted(states, states - 2);
            comparison.expect(&encode(&table), format_args!("layers"), layered, expected);
        }
    });
    comparison.finish(CHAINS);
}

#[test]
fn largest() {
    let mut comparison = Comparison::new();
    comparison.seeded(2, |random, comparison| {
        let tables = largest_tables(random);
        let found = tables.map(|table| compare_table(random, comparison, &table).0);
        let expected = [(1_024, 1_022), (1, 0), (1, 0)];
        assert_eq!(
            found[..3],
            expected.map(|(classes, rounds)| Layered::accepted(classes, rounds))
        );
    });
    comparison.finish(LARGEST_TABLES);
}

#[test]
fn generated_tables() {
    let comparison = Comparison::generated(22_000_000, GENERATED, |random, comparison| {
        let table = small_table(random);
        compare_table(random, comparison, &table);
    });
    comparison.met([0], GENERATED);
    comparison.finish(GENERATED);
}

/// On a file that may be the table's with damage, with slices of any length.
pub fn compare_any(random: &mut Random, comparison: &mut Comparison, table: &Table, file: &[u8]) {
    let states = table.states();
    let lengths = [any_room(random, 16 * states), any_room(random, states)];
    compare(random, comparison, file, lengths);
}

/// The second program's classes for timing are the same.
#[test]
fn both_ways_of_the_second_program() {
    for seed in 24_000_000..24_000_000 + OF_BOTH_WAYS {
        let file = encode(&small_table(&mut Random::new(seed)));
        let automaton = Automaton::read(&file).expect("an accepted file");
        let expected = second::partition(&automaton);
        assert_eq!(moore::partition(&automaton), expected, "seed {seed}");
    }
}
