// The tests of runs from lists that did not begin fresh, well and ill formed.
// Rests on mod.rs and lists.rs.

use super::lists::{lists_from_elsewhere, spoilt_lists, Lists, WAYS_TO_SPOIL};
use super::{ample, any_budget, compare_run, go_on, LARGE_BUDGETS};
use crate::comparison::Comparison;
use crate::generate::{encode, scattered, shaped, small_table, Random, Table};
use crate::interface::splitting::SplitRun;
use crate::lent::{refusal_by_room, rooms};

const LARGEST_FROM_ELSEWHERE: usize = 6;
const FROM_ELSEWHERE: usize = 40_000;
const ILL_FORMED: usize = 20_000;
const RUNS_OF_ALL_ROOMS: usize = 250 * 4;

#[test]
fn runs_from_elsewhere_of_the_largest_tables() {
    let mut comparison = Comparison::new();
    comparison.seeded(4, |random, comparison| {
        for (states, signs) in [(1_024, 31), (500, 64), (1_024, 1)] {
            let file = encode(&scattered(random, states, signs));
            let lists = lists_from_elsewhere(random, states, signs);
            let (first, between) = go_on(random, comparison, &file, 1_000, &lists);
            let (rest, _) = go_on(random, comparison, &file, usize::MAX, &between);
            let ended = first.takes + rest.takes <= states * signs;
            comparison.expect(&file, format_args!("an end"), ended, true);
        }
    });
    comparison.finish(LARGEST_FROM_ELSEWHERE);
}

#[test]
fn runs_from_elsewhere() {
    let comparison = Comparison::generated(41_000_000, FROM_ELSEWHERE / 4, |random, comparison| {
        let table = small_table(random);
        let file = encode(&table);
        let lists = lists_from_elsewhere(random, table.states(), table.signs);
        let budget = random.one_of(&LARGE_BUDGETS);
        let (whole, last) = go_on(random, comparison, &file, budget, &lists);
        let most = table.states() * table.signs;
        comparison.expect(&file, format_args!("an end"), whole.takes <= most, true);
        let budget = random.below(whole.takes + 2);
        let (first, between) = go_on(random, comparison, &file, budget, &lists);
        let (rest, end) = go_on(random, comparison, &file, most, &between);
        let sum = SplitRun::accepted(first.takes + rest.takes, first.entries + rest.entries);
        comparison.expect(&file, format_args!("two runs"), (sum, &end), (whole, &last));
        go_on(random, comparison, &file, 0, &lists);
    });
    comparison.finish(FROM_ELSEWHERE);
}

/// Each way alone, then with a second fault, which may move the place to a lesser state.
#[test]
fn ill_formed_lists() {
    let comparison = Comparison::generated(42_000_000, ILL_FORMED / 10, |random, comparison| {
        let (states, signs) = (random.between(3, 12), random.between(1, 4));
        let table = shaped(random, states, signs);
        let file = encode(&table);
        for way in WAYS_TO_SPOIL {
            let (mut lists, place) = spoilt_lists(random, &table, &[way]);
            let (budget, lengths) = (any_budget(random), ample(random, states));
            let (run, _) = compare_run(random, comparison, &file, budget, &lists, lengths);
            let expected = SplitRun::refused(13, place);
            comparison.expect(&file, format_args!("{lists:?}"), run, expected);
            let state = random.below(states);
            random.one_of(&WAYS_TO_SPOIL)(random, &table, &mut lists, state);
            compare_run(random, comparison, &file, budget, &lists, lengths);
        }
    });
    comparison.met([13], ILL_FORMED / 2);
    comparison.finish(ILL_FORMED);
}

/// 11 before 12 before 13, for each length of each slice, with lists well and ill formed.
fn compare_rooms(
    random: &mut Random,
    comparison: &mut Comparison,
    table: &Table,
    lists: &Lists,
    place: Option<usize>,
) {
    let file = encode(table);
    let states = table.states();
    for classes in rooms(states) {
        for pending in rooms(states) {
            for work in rooms(16 * states) {
                let lengths = [classes, pending, work];
                let budget = any_budget(random);
                let (run, _) = compare_run(random, comparison, &file, budget, lists, lengths);
                let result = [classes.min(pending), states];
                let expected = match (refusal_by_room(states, work, result), place) {
                    ((0, 0), Some(place)) => (13, place),
                    (refusal, _) => refusal,
                };
                let found = (run.number, run.place);
                comparison.expect(&file, format_args!("{lists:?}"), found, expected);
            }
        }
    }
}

#[test]
fn runs_with_slices_of_each_length() {
    let comparison = Comparison::generated(44_000_000, 4, |random, comparison| {
        let table = small_table(random);
        let lists = lists_from_elsewhere(random, table.states(), table.signs);
        compare_rooms(random, comparison, &table, &lists, None);
        let (lists, place) = spoilt_lists(random, &table, &WAYS_TO_SPOIL);
        compare_rooms(random, comparison, &table, &lists, Some(place));
    });
    comparison.met([0, 11, 12, 13], 50);
    comparison.finish(RUNS_OF_ALL_ROOMS);
}
