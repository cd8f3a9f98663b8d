// The tests of the shrunk file.
// Rests on comparison.rs and lent.rs, on the library and the second program, and on generate.rs.

use crate::comparison::{states_of, Comparison};
use crate::generate::{
    blank, copies, encode, renamed, small_table, t1, t2, t3, word, Random, Table, T1_SHRUNK,
};
use crate::interface::running::{run_line, run_word};
use crate::interface::shrinking::{self as library, Shrunk};
use crate::largest::{largest_tables, LARGEST_TABLES};
use crate::lent::{any_room, enough, refusal_by_room, rooms, Lent};
use crate::second::automaton::Automaton;
use crate::second::layering::{count, partition};
use crate::second::shrinking as second;

const OF_THE_PAPER: usize = 4;
const OF_ALL_ROOMS: usize = 25 * 12;
const GENERATED: usize = 50_000;
const LINED: usize = 4_000;

/// Bytes enough for the longest file.
const LONGEST: usize = 65_015;

/// Gives the library's answer, and the shrunk file where there is one.
fn compare(
    random: &mut Random,
    comparison: &mut Comparison,
    file: &[u8],
    [work, out]: [usize; 2],
) -> (Shrunk, Vec<u8>) {
    let kept = file.to_vec();
    let mut work = Lent::new(random, work);
    let mut out = Lent::new(random, out);
    let shrunk = library::shrink(file, work.library(), out.library());
    let second = match second::shrink(file, work.second(), out.second()) {
        Ok(shrunk) => Shrunk::accepted(shrunk.rows, shrunk.length),
        Err(refusal) => Shrunk::refused(refusal.number, refusal.place),
    };
    comparison.demand(file, format_args!("shrink"), shrunk, second);
    comparison.demand_lent(file, "shrunk file", &out, shrunk.length);
    comparison.demand_work(file, &work, shrunk.number);
    comparison.demand_kept(&kept, "file", &kept, file);
    comparison.count("shrink", shrunk.number);
    (shrunk, out.left()[..shrunk.length].to_vec())
}

/// With room enough, for an accepted file.
fn compare_accepted(
    random: &mut Random,
    comparison: &mut Comparison,
    file: &[u8],
) -> (Shrunk, Vec<u8>) {
    let lengths = [
        enough(random, 16 * states_of(file)),
        enough(random, file.len()),
    ];
    let (shrunk, bytes) = compare(random, comparison, file, lengths);
    let found = (shrunk.number, shrunk.place);
    comparison.expect(file, format_args!("shrink"), found, (0, 0));
    (shrunk, bytes)
}

#[test]
fn samples_of_the_paper() {
    let mut comparison = Comparison::new();
    for (table, rows) in [(t1(), 3), (t2(), 7), (t3(), 6), (blank(1, 1), 1)] {
        let file = encode(&table);
        let (shrunk, _) = compare_accepted(&mut Random::new(1), &mut comparison, &file);
        let expected = Shrunk::accepted(rows, 15 + rows + 2 * rows * table.signs);
        comparison.expect(&file, format_args!("shrink"), shrunk, expected);
    }
    let file = encode(&t1());
    let (_, bytes) = compare_accepted(&mut Random::new(2), &mut comparison, &file);
    assert_eq!(bytes, T1_SHRUNK);
    comparison.finish(OF_THE_PAPER);
}

/// The rows: one for each reachable class, all apart and reachable in the shrunk file.
fn demand_rows(comparison: &Comparison, file: &[u8], shrunk: &[u8], rows: usize) {
    for file in [file, shrunk] {
        let automaton = Automaton::read(file).expect("an accepted file");
        let (classes, _) = partition(&automaton);
        let reachable = second::reachable_classes(&automaton, &classes).len();
        comparison.expect(file, format_args!("rows"), rows, reachable);
    }
    let automaton = Automaton::read(shrunk).expect("an accepted file");
    let (classes, _) = partition(&automaton);
    comparison.expect(file, format_args!("rows"), rows, automaton.states);
    comparison.expect(file, format_args!("rows"), rows, count(&classes));
}

/// Shrinks, shrinks again, and runs words and lines over both files.
fn compare_whole(random: &mut Random, comparison: &mut Comparison, table: &Table) {
    let file = encode(table);
    let (shrunk, bytes) = compare_accepted(random, comparison, &file);
    demand_rows(comparison, &file, &bytes, shrunk.rows);
    let again = compare_accepted(random, comparison, &bytes);
    comparison.expect(
        &file,
        format_args!("shrinking again"),
        &again,
        &(shrunk, bytes.clone()),
    );
    for _ in 0..8 {
        let length = random.below(2 * table.states() + 1);
        let word = word(random, table.signs, length);
        let (given, after) = (run_word(&file, &word), run_word(&bytes, &word));
        comparison.expect(&file, format_args!("the run of {word:?}"), after, given);
        let line = random.bytes(length);
        let (given, after) = (run_line(&file, &line), run_line(&bytes, &line));
        comparison.expect(&file, format_args!("the line {line:?}"), after, given);
    }
}

#[test]
fn generated_tables() {
    let comparison = Comparison::generated(50_000_000, GENERATED / 2, |random, comparison| {
        let table = small_table(random);
        compare_whole(random, comparison, &table);
    });
    comparison.met([0], GENERATED);
    comparison.finish(GENERATED);
}

/// Tables over the signs of the plan, on which lines run.
#[test]
fn tables_that_run_lines() {
    let comparison = Comparison::generated(56_000_000, LINED / 2, |random, comparison| {
        let states = random.between(1, 20);
        let table = copies(random, states, 47);
        let table = renamed(random, &table);
        compare_whole(random, comparison, &table);
    });
    comparison.met([0], LINED);
    comparison.finish(LINED);
}

#[test]
fn largest() {
    let mut comparison = Comparison::new();
    comparison.seeded(3, |random, comparison| {
        for table in largest_tables(random) {
            compare_whole(random, comparison, &table);
        }
    });
    comparison.finish(2 * LARGEST_TABLES);
}

/// The length of the table's shrunk file.
fn shrunk_length(table: &Table) -> usize {
    let mut work = vec![0; 16 * table.states()];
    let shrunk = second::shrink(&encode(table), &mut work, &mut [0; LONGEST]);
    shrunk.expect("an accepted file").length
}

#[test]
fn slices_of_each_length() {
    let comparison = Comparison::generated(51_000_000, OF_ALL_ROOMS / 25, |random, comparison| {
        let table = small_table(random);
        let file = encode(&table);
        let length = shrunk_length(&table);
        for work in rooms(16 * table.states()) {
            for out in rooms(length) {
                let (shrunk, _) = compare(random, comparison, &file, [work, out]);
                let found = (shrunk.number, shrunk.place);
                let expected = refusal_by_room(table.states(), work, [out, length]);
                comparison.expect(&file, format_args!("the refusal"), found, expected);
            }
        }
    });
    comparison.met([0, 11, 12], 50);
    comparison.finish(OF_ALL_ROOMS);
}

/// On a file that may be the table's with damage, with slices of any length.
pub fn compare_any(random: &mut Random, comparison: &mut Comparison, table: &Table, file: &[u8]) {
    let work = any_room(random, 16 * table.states());
    let out = any_room(random, shrunk_length(table));
    compare(random, comparison, file, [work, out]);
}
