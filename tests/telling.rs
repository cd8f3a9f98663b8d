// The tests of the word that tells two states apart.
// Rests on comparison.rs and lent.rs, on the library and the second program, and on generate.rs.

use crate::comparison::{states_of, Comparison};
use crate::generate::{chain, encode, small_table, t1, t2, t3, table, Random, Table};
use crate::interface::telling::{self as library, Told};
use crate::largest::{largest_tables, LARGEST_TABLES};
use crate::lent::{any_room, enough, refusal_by_room, rooms, Lent};
use crate::second::automaton::Automaton;
use crate::second::layering::partition;
use crate::second::running::last_state;
use crate::second::telling as second;

const OF_THE_PAPER: usize = 6;
const ALL_PAIRS: usize = 200_000;
const SOME_PAIRS: usize = 20_000;
const OF_ALL_ROOMS: usize = 20 * 25;
const NO_STATES: usize = 10_000;
const GENERATED: usize = 20_000;

/// What is asked: the two states, and the lengths of the work slice and of the word.
#[derive(Clone, Copy, Debug)]
struct Asked {
    states: [usize; 2],
    work: usize,
    word: usize,
}

/// Gives the library's answer, and its word where there is one.
fn compare(
    random: &mut Random,
    comparison: &mut Comparison,
    file: &[u8],
    asked: Asked,
) -> (Told, Vec<u8>) {
    let kept = file.to_vec();
    let mut work = Lent::new(random, asked.work);
    let mut word = Lent::new(random, asked.word);
    let [p, q] = asked.states;
    let told = library::tell(file, p, q, work.library(), word.library());
    let second = match second::tell(file, p, q, work.second(), word.second()) {
        Ok(Some(length)) => Told::apart(length),
        Ok(None) => Told::ALIKE,
        Err(refusal) => Told::refused(refusal.number, refusal.place),
    };
    comparison.demand(file, format_args!("tell with {asked:?}"), told, second);
    let what = format!("word of tell with {asked:?}");
    comparison.demand_lent(file, &what, &word, told.length);
    comparison.demand_work(file, &work, told.number);
    comparison.demand_kept(&kept, "file", &kept, file);
    comparison.count("tell", told.number);
    (told, word.left()[..told.length].to_vec())
}

/// With room enough for the longest word.
fn compare_pair(
    random: &mut Random,
    comparison: &mut Comparison,
    file: &[u8],
    states: [usize; 2],
) -> (Told, Vec<u8>) {
    let count = states_of(file);
    let asked = Asked {
        states,
        work: enough(random, 16 * count),
        word: enough(random, count.saturating_sub(2)),
    };
    let (told, word) = compare(random, comparison, file, asked);
    comparison.expect(file, format_args!("tell with {asked:?}"), told.number, 0);
    (told, word)
}

#[test]
fn samples_of_the_paper() {
    let mut comparison = Comparison::new();
    let cases: [(Table, [usize; 2], Option<&[u8]>); 6] = [
        (t1(), [0, 1], Some(&[0])),
        (t1(), [0, 2], Some(&[])),
        (t1(), [1, 4], None),
        (t1(), [3, 3], None),
        (t2(), [0, 2], Some(&[0, 1])),
        (t3(), [0, 1], Some(&[0, 0, 0, 0])),
    ];
    for (table, states, word) in cases {
        let file = encode(&table);
        let found = compare_pair(&mut Random::new(1), &mut comparison, &file, states);
        let told = word.map_or(Told::ALIKE, |word| Told::apart(word.len()));
        let expected = (told, word.unwrap_or_default().to_vec());
        comparison.expect(&file, format_args!("tell {states:?}"), found, expected);
    }
    comparison.finish(OF_THE_PAPER);
}

/// The word parts the states, and there is one where they are in two classes.
fn compare_with_classes(
    random: &mut Random,
    comparison: &mut Comparison,
    file: &[u8],
    classes: &[usize],
    states: [usize; 2],
) {
    let (told, word) = compare_pair(random, comparison, file, states);
    let automaton = Automaton::read(file).expect("an accepted file");
    let [first, second] = states.map(|state| automaton.mark(last_state(&automaton, state, &word)));
    let [first_class, second_class] = states.map(|state| classes[state]);
    let what = format_args!("tell {states:?}, classes and marks");
    let apart = told.apart == 1;
    comparison.expect(file, what, apart, first_class != second_class);
    comparison.expect(file, what, apart, first != second);
}

#[test]
fn all_pairs_of_small_tables() {
    let comparison = Comparison::generated(30_000_000, 3_000, |random, comparison| {
        let file = encode(&small_table(random));
        let automaton = Automaton::read(&file).expect("an accepted file");
        let (classes, _) = partition(&automaton);
        for first in 0..automaton.states {
            for second in 0..automaton.states {
                compare_with_classes(random, comparison, &file, &classes, [first, second]);
            }
        }
    });
    comparison.finish(ALL_PAIRS);
}

#[test]
fn some_pairs_of_tables_of_any_size() {
    let comparison = Comparison::generated(31_000_000, SOME_PAIRS / 10, |random, comparison| {
        let table = table(random);
        let file = encode(&table);
        for _ in 0..10 {
            let states = [random.below(table.states()), random.below(table.states())];
            compare_pair(random, comparison, &file, states);
        }
    });
    comparison.finish(SOME_PAIRS);
}

#[test]
fn pairs_of_the_largest_tables() {
    let mut comparison = Comparison::new();
    comparison.seeded(2, |random, comparison| {
        let chain = chain(random, 1_024, 1);
        let (told, _) = compare_pair(random, comparison, &encode(&chain), [1, 0]);
        let expected = Told::apart(1_022);
        comparison.expect(&encode(&chain), format_args!("tell"), told, expected);
        for table in largest_tables(random) {
            let file = encode(&table);
            for _ in 0..6 {
                let states = [random.below(table.states()), random.below(table.states())];
                compare_pair(random, comparison, &file, states);
            }
        }
    });
    comparison.finish(6 * LARGEST_TABLES);
}

/// Of a few pairs of states the one with the longest word, and its length.
fn pair_and_length(random: &mut Random, table: &Table) -> ([usize; 2], usize) {
    let file = encode(table);
    let automaton = Automaton::read(&file).expect("an accepted file");
    let pairs = (0..6).map(|_| {
        let [first, second] = [0; 2].map(|_| random.below(table.states()));
        let word = second::telling_word(&automaton, first, second);
        ([first, second], word.map_or(0, |word| word.len()))
    });
    pairs.max_by_key(|&(_, length)| length).expect("six pairs")
}

#[test]
fn slices_of_each_length() {
    let comparison = Comparison::generated(32_000_000, OF_ALL_ROOMS / 25, |random, comparison| {
        let table = small_table(random);
        let (states, length) = pair_and_length(random, &table);
        let file = encode(&table);
        for work in rooms(16 * table.states()) {
            for word in rooms(length) {
                let asked = Asked { states, work, word };
                let (told, _) = compare(random, comparison, &file, asked);
                let found = (told.number, told.place);
                let expected = refusal_by_room(table.states(), work, [word, length]);
                comparison.expect(&file, format_args!("{asked:?}"), found, expected);
            }
        }
    });
    comparison.met([0, 11, 12], 25);
    comparison.finish(OF_ALL_ROOMS);
}

/// A state of n or more, also such that its low bytes are those of a right one.
fn no_state(random: &mut Random, states: usize) -> usize {
    let state = random.below(states);
    let beyond = 1 << random.between(16, usize::BITS as usize - 1);
    random.one_of(&[
        states,
        states + 1,
        (state + 256).max(states),
        state + 65_536,
        state + beyond,
        usize::MAX,
    ])
}

/// Asked of slices of any length, since the states come first.
#[test]
fn states_beyond_the_last() {
    let comparison = Comparison::generated(33_000_000, NO_STATES / 4, |random, comparison| {
        let table = small_table(random);
        let states = table.states();
        let file = encode(&table);
        let [first, second] = [random.below(states), random.below(states)];
        let [no_first, no_second] = [no_state(random, states), no_state(random, states)];
        for (states, place) in [
            ([no_first, second], 0),
            ([first, no_second], 1),
            ([no_first, no_second], 0),
            ([no_first, no_first], 0),
        ] {
            let asked = Asked {
                states,
                work: any_room(random, 16 * table.states()),
                word: any_room(random, table.states()),
            };
            let (told, _) = compare(random, comparison, &file, asked);
            let expected = Told::refused(10, place);
            comparison.expect(&file, format_args!("{asked:?}"), told, expected);
        }
    });
    comparison.met([10], NO_STATES);
    comparison.finish(NO_STATES);
}

#[test]
fn generated_tables() {
    let comparison = Comparison::generated(34_000_000, GENERATED, |random, comparison| {
        let table = small_table(random);
        let (states, _) = pair_and_length(random, &table);
        let file = encode(&table);
        let (classes, _) = partition(&Automaton::read(&file).expect("an accepted file"));
        compare_with_classes(random, comparison, &file, &classes, states);
    });
    comparison.met([0], GENERATED);
    comparison.finish(GENERATED);
}

/// On a file that may be the table's with damage, of any two states, with slices of any length.
pub fn compare_any(random: &mut Random, comparison: &mut Comparison, table: &Table, file: &[u8]) {
    let (mut states, length) = pair_and_length(random, table);
    if random.below(8) == 0 {
        states[random.below(2)] = no_state(random, table.states());
    }
    let asked = Asked {
        states,
        work: any_room(random, 16 * table.states()),
        word: any_room(random, length),
    };
    compare(random, comparison, file, asked);
}
