// The lines of the calls, each of the library's beside the second program's.
// Rests on cases.rs, lines.rs and the modules of tests/.

use std::hint::black_box;

use crate::cases::{Case, SIGNS_OF_LINES};
use crate::lines::{answer, Answer, Line};
use crate::parts::generate::{word, Random};
use crate::parts::interface::{judging, layering, running, shrinking, splitting, telling};
use crate::parts::second::{self, file::Refusal, moore, tuned};
use crate::phases;

const SEED: u64 = 1;
const LENGTHS: [usize; 2] = [1_000, 100_000];
const BUDGET: usize = 65_535;

pub fn lines(cases: &[Case]) -> Vec<Line<'_>> {
    let mut lines: Vec<Line> = cases.iter().map(judge).collect();
    for length in LENGTHS {
        lines.extend(cases.iter().map(|case| run_word(case, length)));
    }
    for length in LENGTHS {
        let of_lines = cases.iter().filter(|case| case.signs == SIGNS_OF_LINES);
        lines.extend(of_lines.map(|case| run_line(case, length)));
    }
    for line in [layers, tell, tell_layers, fresh, takes, shrink] {
        lines.extend(cases.iter().map(line));
    }
    lines
}

fn judge(case: &Case) -> Line<'_> {
    Line::new(
        case.name,
        &["judge", phases::NAME],
        || {
            let judged = judging::judge(black_box(&case.file));
            [judged.number, judged.states, judged.signs]
        },
        || {
            let judged = second::file::judge(black_box(&case.file));
            answer(judged, |table| [table.states, table.signs])
        },
    )
}

fn run_word(case: &Case, length: usize) -> Line<'_> {
    let word = word(&mut Random::new(SEED), case.signs, length);
    let second = second::running::run_word;
    run(case, &["run_word"], word, running::run_word, second)
}

fn run_line(case: &Case, length: usize) -> Line<'_> {
    let line = Random::new(SEED).bytes(length);
    let second = second::running::run_line;
    run(case, &["run_line"], line, running::run_line, second)
}

/// Of a word or a line.
fn run<'a>(
    case: &'a Case,
    names: &'static [&'static str],
    lent: Vec<u8>,
    library: fn(&[u8], &[u8]) -> running::Ran,
    second: fn(&[u8], &[u8]) -> Result<u8, Refusal>,
) -> Line<'a> {
    let call = format!("{} {}", names[0], lent.len());
    let lent_second = lent.clone();
    Line::new(
        case.name,
        names,
        move || {
            let ran = library(black_box(&case.file), &lent);
            [ran.number, ran.kind, 0]
        },
        move || {
            let ran = second(black_box(&case.file), &lent_second);
            answer(ran, |kind| [usize::from(kind), 0])
        },
    )
    .called(call)
}

fn layers(case: &Case) -> Line<'_> {
    let (mut work, mut classes) = (case.work(), case.list());
    Line::new(case.name, &["layers"], library_layers(case), move || {
        let file = black_box(&case.file);
        let layered = second::layering::layers_by(moore::partition, file, &mut work, &mut classes);
        answer(layered, |layered| [layered.classes, layered.rounds])
    })
}

fn library_layers(case: &Case) -> impl FnMut() -> Answer + '_ {
    let (mut work, mut classes) = (case.work(), case.list());
    move || {
        let layered = layering::layers(black_box(&case.file), &mut work, &mut classes);
        [layered.number, layered.classes, layered.rounds]
    }
}

fn tell(case: &Case) -> Line<'_> {
    let [p, q] = pair(case);
    let (mut work, mut word) = (case.work(), vec![0; case.states]);
    Line::new(case.name, &["tell"], library_tell(case), move || {
        let file = black_box(&case.file);
        let told = second::telling::tell(file, p, q, &mut work, &mut word);
        answer(told, |told| {
            [usize::from(told.is_some()), told.unwrap_or(0)]
        })
    })
}

/// The telling call beside the layered call, both the library's; only the refusals are compared.
fn tell_layers(case: &Case) -> Line<'_> {
    let (mut tell, mut layers) = (library_tell(case), library_layers(case));
    Line::new(
        case.name,
        &["tell-layers"],
        move || [tell()[0], 0, 0],
        move || [layers()[0], 0, 0],
    )
}

fn library_tell(case: &Case) -> impl FnMut() -> Answer + '_ {
    let [p, q] = pair(case);
    let (mut work, mut word) = (case.work(), vec![0; case.states]);
    move || {
        let told = telling::tell(black_box(&case.file), p, q, &mut work, &mut word);
        [told.number, told.apart, told.length]
    }
}

/// The first two states that are alike; 0 and 1 where none are.
fn pair(case: &Case) -> [usize; 2] {
    let alike = case.classes.iter().enumerate().find(|(q, &p)| p != *q);
    alike.map_or([0, 1], |(q, &p)| [p, q])
}

fn fresh(case: &Case) -> Line<'_> {
    let mut lent = [case.list(), case.list()];
    let mut second_lent = lent.clone();
    Line::new(
        case.name,
        &["fresh", phases::NAME],
        move || {
            let [classes, pending] = &mut lent;
            let started = splitting::fresh(black_box(&case.file), classes, pending);
            [started.number, 0, 0]
        },
        move || {
            let [classes, pending] = &mut second_lent;
            let started = second::splitting::fresh(black_box(&case.file), classes, pending);
            answer(started, |()| [0, 0])
        },
    )
}

/// Fresh lists and a full run.
fn takes(case: &Case) -> Line<'_> {
    let lay: [Lay; 2] = [
        |case, classes, pending| {
            splitting::fresh(&case.file, classes, pending);
        },
        |case, classes, pending| {
            let started = second::splitting::fresh(&case.file, classes, pending);
            started.expect("an accepted file");
        },
    ];
    takes_from(lay, case, &["takes"], BUDGET)
}

/// Lays out the class and the pending list.
pub type Lay = fn(&Case, &mut [u16], &mut [u16]);

/// The lists laid out by each program's own call, and a run.
pub fn takes_from<'a>(
    lay: [Lay; 2],
    case: &'a Case,
    names: &'static [&'static str],
    budget: usize,
) -> Line<'a> {
    let mut lent = [case.list(), case.list(), case.work()];
    let mut second_lent = lent.clone();
    Line::new(
        case.name,
        names,
        move || {
            let [classes, pending, work] = &mut lent;
            lay[0](black_box(case), classes, pending);
            let run = splitting::run(&case.file, budget, classes, pending, work);
            [run.number, run.takes, run.entries]
        },
        move || {
            let [classes, pending, work] = &mut second_lent;
            lay[1](black_box(case), classes, pending);
            let run = tuned::run(&case.file, budget, classes, pending, work);
            answer(run, |run| [run.takes, run.entries])
        },
    )
}

fn shrink(case: &Case) -> Line<'_> {
    let mut lent = (case.work(), vec![0; case.file.len()]);
    let mut second_lent = lent.clone();
    Line::new(
        case.name,
        &["shrink", phases::NAME],
        move || {
            let (work, out) = &mut lent;
            let shrunk = shrinking::shrink(black_box(&case.file), work, out);
            [shrunk.number, shrunk.rows, shrunk.length]
        },
        move || {
            let (work, out) = &mut second_lent;
            let file = black_box(&case.file);
            let shrunk = second::shrinking::shrink_by(moore::partition, file, work, out);
            answer(shrunk, |shrunk| [shrunk.rows, shrunk.length])
        },
    )
}
