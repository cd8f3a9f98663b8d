// The tests of the splitting: how its calls are compared, and both ways of the second program.
// Rests on comparison.rs and lent.rs, on the library and the second program, and on generate.rs.

mod from_elsewhere;
mod from_fresh;
mod lists;

use crate::comparison::{states_of, Comparison};
use crate::generate::{encode, small_table, Random, Table};
use crate::interface::splitting::{self as library, SplitRun, Started};
use crate::lent::{any_room, enough, Lent};
use crate::second::splitting as second;
use crate::second::tuned;

use lists::{any_lists, Lists};

const OF_BOTH_WAYS: u64 = 5_000;

/// Budgets that finish every run.
const LARGE_BUDGETS: [usize; 4] = [65_535, 65_536, 65_537, usize::MAX];

/// The lengths of the class list, the pending list and the work slice.
type Lengths = [usize; 3];

fn ample(random: &mut Random, states: usize) -> Lengths {
    [states, states, 16 * states].map(|needed| enough(random, needed))
}

fn any_lengths(random: &mut Random, states: usize) -> Lengths {
    [states, states, 16 * states].map(|needed| any_room(random, needed))
}

/// Demands the rules for both lists, and gives what the library left in the first n of each.
fn demand_lists(
    comparison: &Comparison,
    file: &[u8],
    number: usize,
    [classes, pending]: [&Lent<u16>; 2],
) -> Lists {
    let written = match number {
        0 => states_of(file),
        _ => 0,
    };
    comparison.demand_lent(file, "class list", classes, written);
    comparison.demand_lent(file, "pending list", pending, written);
    Lists {
        classes: classes.left()[..written].to_vec(),
        pending: pending.left()[..written].to_vec(),
    }
}

/// Gives the library's answer, and its lists where it accepts.
fn compare_fresh(
    random: &mut Random,
    comparison: &mut Comparison,
    file: &[u8],
    [classes, pending, _]: Lengths,
) -> (Started, Lists) {
    let kept = file.to_vec();
    let mut classes = Lent::new(random, classes);
    let mut pending = Lent::new(random, pending);
    let started = library::fresh(file, classes.library(), pending.library());
    let (number, place) = match second::fresh(file, classes.second(), pending.second()) {
        Ok(()) => (0, 0),
        Err(refusal) => (refusal.number, refusal.place),
    };
    comparison.demand(
        file,
        format_args!("fresh"),
        started,
        Started { number, place },
    );
    let lists = demand_lists(comparison, file, number, [&classes, &pending]);
    comparison.demand_kept(&kept, "file", &kept, file);
    comparison.count("fresh", number);
    (started, lists)
}

/// Gives the library's answer, and its lists where it accepts.
fn compare_run(
    random: &mut Random,
    comparison: &mut Comparison,
    file: &[u8],
    budget: usize,
    before: &Lists,
    [classes, pending, work]: Lengths,
) -> (SplitRun, Lists) {
    let kept = file.to_vec();
    let mut classes = Lent::holding(random, &before.classes, classes);
    let mut pending = Lent::holding(random, &before.pending, pending);
    let mut work = Lent::new(random, work);
    let run = library::run(
        file,
        budget,
        classes.library(),
        pending.library(),
        work.library(),
    );
    let (lent_classes, lent_pending) = (classes.second(), pending.second());
    let second = match second::run(file, budget, lent_classes, lent_pending, work.second()) {
        Ok(run) => SplitRun::accepted(run.takes, run.entries),
        Err(refusal) => SplitRun::refused(refusal.number, refusal.place),
    };
    let what = format_args!("run with budget {budget} on {before:?}");
    comparison.demand(file, what, run, second);
    let after = demand_lists(comparison, file, run.number, [&classes, &pending]);
    comparison.demand_work(file, &work, run.number);
    comparison.demand_kept(&kept, "file", &kept, file);
    if budget == 0 {
        comparison.demand_lent(file, "class list at budget 0", &classes, 0);
        comparison.demand_lent(file, "pending list at budget 0", &pending, 0);
    }
    comparison.count("run", run.number);
    (run, after)
}

/// Fresh lists of an accepted file, with room enough.
fn begin(random: &mut Random, comparison: &mut Comparison, file: &[u8]) -> Lists {
    let lengths = ample(random, states_of(file));
    let (started, lists) = compare_fresh(random, comparison, file, lengths);
    let found = (started.number, started.place);
    comparison.expect(file, format_args!("fresh"), found, (0, 0));
    lists
}

/// A run on well formed lists, with room enough.
fn go_on(
    random: &mut Random,
    comparison: &mut Comparison,
    file: &[u8],
    budget: usize,
    lists: &Lists,
) -> (SplitRun, Lists) {
    let lengths = ample(random, states_of(file));
    let (run, after) = compare_run(random, comparison, file, budget, lists, lengths);
    let found = (run.number, run.place, run.takes <= budget);
    comparison.expect(file, format_args!("run"), found, (0, 0, true));
    (run, after)
}

fn any_budget(random: &mut Random) -> usize {
    match random.below(4) {
        0 => 0,
        1 => random.one_of(&LARGE_BUDGETS),
        _ => random.below(20),
    }
}

/// On a file that may be the table's with damage, with slices of any length: fresh, a run from its
/// lists where it gave any, and a run from any lists.
pub fn compare_any(random: &mut Random, comparison: &mut Comparison, table: &Table, file: &[u8]) {
    let lengths = any_lengths(random, table.states());
    let (started, begun) = compare_fresh(random, comparison, file, lengths);
    let begun = (started.number == 0).then_some(begun);
    let elsewhere = any_lists(random, table);
    for lists in begun.iter().chain([&elsewhere]) {
        let (budget, lengths) = (any_budget(random), any_lengths(random, table.states()));
        compare_run(random, comparison, file, budget, lists, lengths);
    }
}

/// The second program's run for timing leads to the same.
#[test]
fn both_ways_of_the_second_program() {
    for seed in 47_000_000..47_000_000 + OF_BOTH_WAYS {
        let random = &mut Random::new(seed);
        let table = small_table(random);
        let file = encode(&table);
        let (lists, budget) = (any_lists(random, &table), any_budget(random));
        let mut answers = Vec::new();
        for run in [second::run, tuned::run] {
            let (mut lists, mut work) = (lists.clone(), vec![7; 16 * table.states()]);
            let answer = run(
                &file,
                budget,
                &mut lists.classes,
                &mut lists.pending,
                &mut work,
            );
            answers.push((answer, lists, work));
        }
        assert!(answers[0] == answers[1], "seed {seed}: {answers:?}");
    }
}
