// The printed tables: a row has two times, two counts of instructions and their ratios.
// Rests on counting.rs and lines.rs.

use crate::counting::Count;
use crate::lines::Line;
use crate::timing::medians;

/// What the two calls of a line cost; no times where they aren't wanted, no counts without valgrind.
pub struct Cost<'a> {
    /// The first name of the line.
    pub name: &'static str,
    pub case: &'a str,
    pub call: String,
    pub times: Option<[f64; 2]>,
    pub counts: Option<[Count; 2]>,
}

impl<'a> Cost<'a> {
    pub fn new(mut line: Line<'a>, counts: Option<[Count; 2]>) -> Cost<'a> {
        line.agree(|call| call());
        Cost {
            name: line.names[0],
            case: line.case,
            times: line.timed.then(|| medians(&mut line.calls)),
            call: line.call,
            counts,
        }
    }

    pub fn wholes(&self) -> Option<[f64; 2]> {
        let counts = self.counts.as_ref()?;
        Some(counts.each_ref().map(|count| count.whole))
    }

    pub fn print(&self) {
        row(self.case, &self.call, self.times, self.wholes());
    }
}

pub fn find<'c, 'a>(costs: &'c [Cost<'a>], case: &str, call: &str) -> &'c Cost<'a> {
    let mut costs = costs.iter();
    let cost = costs.find(|cost| cost.case == case && cost.call == call);
    cost.expect("a measured line")
}

pub fn ratio([library, beside]: [f64; 2]) -> f64 {
    library / beside
}

/// What a row is of stands above its second column.
pub fn head(of: &str) {
    println!();
    let [times, counts] = ["ns", "instructions"].map(|unit| {
        let [library, beside] = ["library", "beside"].map(|side| format!("{side} {unit}"));
        format!("{library:>20} | {beside:>20} | {:>6}", "ratio")
    });
    println!("| {:<10} | {:<15} | {times} | {counts} |", "case", of);
    println!("|---|---|--:|--:|--:|--:|--:|--:|");
}

pub fn row(case: &str, call: &str, times: Option<[f64; 2]>, counts: Option<[f64; 2]>) {
    let [times, counts] = [times, counts].map(|pair| {
        let [library, beside] = [0, 1].map(|side| shown(pair.map(|pair| pair[side])));
        let ratio = pair.map_or("-".to_string(), |pair| format!("{:.2}", ratio(pair)));
        format!("{library:>20} | {beside:>20} | {ratio:>6}")
    });
    println!("| {case:<10} | {call:<15} | {times} | {counts} |");
}

/// Small numbers that aren't whole have one digit more.
fn shown(number: Option<f64>) -> String {
    match number {
        Some(number) if number < 1_000.0 && number.fract() != 0.0 => format!("{number:.1}"),
        Some(number) => format!("{number:.0}"),
        None => "-".to_string(),
    }
}
