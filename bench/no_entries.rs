// A take that looks at no entries: what 31 of them cost more than one.
// Rests on calls.rs for the runs and on tables.rs.

use crate::calls::{takes_from, Lay};
use crate::cases::Case;
use crate::lines::Line;
use crate::parts::generate::blank;
use crate::tables::{find, row, Cost};

pub const NAME: &str = "no-entries";

const STATES: usize = 1_024;
const SIGNS: usize = 31;
const BUDGETS: [usize; 2] = [SIGNS, 1];

/// Every next state is 0.
pub fn case() -> Case {
    Case::new(NAME, &blank(STATES, SIGNS))
}

/// Every state is a class, and all signs of the last one wait, which no state leads to.
const LAY: Lay = |case, classes, pending| {
    for (state, class) in classes.iter_mut().enumerate() {
        *class = state as u16;
    }
    pending.fill(0);
    pending[case.states - 1] = case.signs as u16;
};

pub fn lines(case: &Case) -> impl Iterator<Item = Line<'_>> {
    let line = |budget| takes_from([LAY; 2], case, &[NAME], budget);
    BUDGETS
        .into_iter()
        .map(move |budget| line(budget).called(call(budget)))
}

fn call(budget: usize) -> String {
    format!("budget {budget}")
}

/// Prints the two runs and what one take cost.
pub fn print(costs: &[Cost]) {
    let runs = BUDGETS.map(|budget| find(costs, NAME, &call(budget)));
    runs.iter().for_each(|run| run.print());
    let times = runs.map(|run| run.times);
    let wholes = runs.map(|run| run.wholes());
    row(NAME, "one take", of_one(times), of_one(wholes));
}

fn of_one([many, one]: [Option<[f64; 2]>; 2]) -> Option<[f64; 2]> {
    let (many, one) = (many?, one?);
    let takes = (BUDGETS[0] - BUDGETS[1]) as f64;
    Some([0, 1].map(|side| (many[side] - one[side]) / takes))
}
