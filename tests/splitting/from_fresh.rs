// The tests of fresh lists and of runs that begin with them.
// Rests on mod.rs, and on the second program's classes.

use super::lists::Lists;
use super::{begin, compare_fresh, go_on, LARGE_BUDGETS};
use crate::comparison::{states_of, Comparison};
use crate::generate::{blank, encode, small_table, t1, t2, t3, Random, Table};
use crate::interface::splitting::SplitRun;
use crate::largest::{largest_tables, LARGEST_TABLES};
use crate::lent::{refusal_by_room, rooms};
use crate::second::automaton::Automaton;
use crate::second::layering::{count, partition};

const OF_THE_PAPER: usize = 38;
const GENERATED: usize = 20_000;
const FROM_FRESH: usize = 300_000;
const FRESH_OF_ALL_ROOMS: usize = 25 * 6;

/// The lists before each take from the given ones on, those after the last, and the entries.
fn single_takes(
    random: &mut Random,
    comparison: &mut Comparison,
    file: &[u8],
    lists: Lists,
) -> (Vec<Lists>, Vec<usize>) {
    let mut history = vec![lists];
    let mut entries = Vec::new();
    loop {
        let (run, after) = go_on(random, comparison, file, 1, &history[entries.len()]);
        if run.takes == 0 {
            comparison.expect(file, format_args!("a run at the end"), run.entries, 0);
            comparison.expect(
                file,
                format_args!("the end"),
                &after,
                &history[entries.len()],
            );
            return (history, entries);
        }
        history.push(after);
        entries.push(run.entries);
    }
}

#[test]
fn samples_of_the_paper() {
    let mut comparison = Comparison::new();
    let random = &mut Random::new(1);
    for (table, takes, total) in [
        (t1(), 4, Some(9)),
        (t2(), 12, None),
        (t3(), 10, Some(10)),
        (blank(1, 1), 0, Some(0)),
    ] {
        let file = encode(&table);
        let lists = begin(random, &mut comparison, &file);
        let (_, entries) = single_takes(random, &mut comparison, &file, lists.clone());
        let (run, _) = go_on(random, &mut comparison, &file, 65_535, &lists);
        let found = entries.iter().sum();
        assert_eq!(entries.len(), takes);
        assert_eq!(run, SplitRun::accepted(takes, found));
        assert_eq!(total.unwrap_or(found), found);
    }
    comparison.finish(OF_THE_PAPER);
}

#[test]
fn t1_take_by_take() {
    let mut comparison = Comparison::new();
    let random = &mut Random::new(2);
    let file = encode(&t1());
    let fresh = begin(random, &mut comparison, &file);
    let (history, entries) = single_takes(random, &mut comparison, &file, fresh);
    let expected = [
        ([0, 0, 2, 2, 0], [0, 0, 2, 0, 0]),
        ([0, 0, 2, 2, 0], [0, 0, 1, 0, 0]),
        ([0, 1, 2, 2, 1], [2, 0, 0, 0, 0]),
        ([0, 1, 2, 2, 1], [1, 0, 0, 0, 0]),
        ([0, 1, 2, 2, 1], [0, 0, 0, 0, 0]),
    ];
    let expected: Vec<Lists> = expected
        .map(|(classes, pending)| Lists {
            classes: classes.to_vec(),
            pending: pending.to_vec(),
        })
        .into();
    assert_eq!(history, expected);
    assert_eq!(entries, [2, 4, 3, 0]);
    comparison.finish(6);
}

/// What the paper demands of a whole run from fresh: takes, entries and classes.
fn demand_of_whole_runs(
    comparison: &Comparison,
    file: &[u8],
    (takes, entries): (usize, usize),
    last: &Lists,
) {
    let automaton = Automaton::read(file).expect("an accepted file");
    let (states, signs) = (automaton.states, automaton.signs);
    let (names, _) = partition(&automaton);
    let all = signs * (count(&names) - 1);
    comparison.expect(file, format_args!("takes of a whole run"), takes, all);
    let most = states * signs * states.ilog2() as usize;
    let what = format_args!("entries of a whole run, {entries} and at most {most}");
    comparison.expect(file, what, entries <= most, true);
    let classes = names.iter().map(|&name| name as u16).collect();
    let pending = vec![0; states];
    let expected = Lists { classes, pending };
    comparison.expect(file, format_args!("the last lists"), last, &expected);
}

/// Single takes, all at once and random budgets lead through the same lists.
fn compare_whole_runs(random: &mut Random, comparison: &mut Comparison, table: &Table) {
    let file = encode(table);
    let fresh = begin(random, comparison, &file);
    let (history, entries) = single_takes(random, comparison, &file, fresh);
    let total = (entries.len(), entries.iter().sum());
    demand_of_whole_runs(comparison, &file, total, &history[total.0]);
    let budget = random.one_of(&LARGE_BUDGETS);
    let (run, last) = go_on(random, comparison, &file, budget, &history[0]);
    let all = (SplitRun::accepted(total.0, total.1), &history[total.0]);
    comparison.expect(&file, format_args!("all at once"), (run, &last), all);
    let mut takes = 0;
    while takes < total.0 {
        let budget = random.below(7);
        let (run, after) = go_on(random, comparison, &file, budget, &history[takes]);
        let made = budget.min(total.0 - takes);
        let looked_at = entries[takes..takes + made].iter().sum();
        takes += made;
        let expected = (SplitRun::accepted(made, looked_at), &history[takes]);
        comparison.expect(&file, format_args!("a part"), (run, &after), expected);
    }
}

#[test]
fn runs_of_generated_tables() {
    let comparison = Comparison::generated(40_000_000, GENERATED, |random, comparison| {
        let table = small_table(random);
        compare_whole_runs(random, comparison, &table);
    });
    comparison.finish(FROM_FRESH);
}

#[test]
fn runs_of_the_largest_tables() {
    let mut comparison = Comparison::new();
    let mut most_entries = 0;
    comparison.seeded(3, |random, comparison| {
        for table in largest_tables(random) {
            let file = encode(&table);
            let fresh = begin(random, comparison, &file);
            let (run, last) = go_on(random, comparison, &file, 65_536, &fresh);
            demand_of_whole_runs(comparison, &file, (run.takes, run.entries), &last);
            most_entries = most_entries.max(run.entries);
        }
    });
    assert!(most_entries > 65_535, "{most_entries} entries fit 16 bits");
    comparison.finish(2 * LARGEST_TABLES);
}

#[test]
fn fresh_with_lists_of_each_length() {
    let comparison = Comparison::generated(43_000_000, 6, |random, comparison| {
        let file = encode(&small_table(random));
        let states = states_of(&file);
        for classes in rooms(states) {
            for pending in rooms(states) {
                let lengths = [classes, pending, 0];
                let (started, _) = compare_fresh(random, comparison, &file, lengths);
                let found = (started.number, started.place);
                let result = [classes.min(pending), states];
                let expected = refusal_by_room(states, 16 * states, result);
                comparison.expect(&file, format_args!("fresh"), found, expected);
            }
        }
    });
    comparison.met([0, 12], 25);
    comparison.finish(FRESH_OF_ALL_ROOMS);
}
