// Measures the calls of the library beside the second program's, by time and by instructions.
// Rests on the library, linked as libwylgentip.a, and on the modules of tests/.

mod calls;
mod cases;
mod counting;
mod lines;
mod no_entries;
#[allow(dead_code)]
mod parts;
mod phases;
mod tables;
mod timing;

use std::process::ExitCode;

use cases::Case;
use lines::Line;
use tables::{head, ratio, Cost};

/// What the words of the command ask for.
#[derive(Default)]
struct Asked {
    counted: bool,
    name: Option<String>,
    most: Option<f64>,
}

impl Asked {
    fn read(lines: &[Line]) -> Option<Asked> {
        let mut asked = Asked::default();
        let mut words = std::env::args().skip(1);
        while let Some(word) = words.next() {
            match &word[..] {
                counting::COUNTED => asked.counted = true,
                "--most" => asked.most = Some(allowed(&words.next()?)?),
                name if lines.iter().any(|line| line.names.contains(&name)) => {
                    asked.name = Some(word)
                }
                _ => return None,
            }
        }
        Some(asked)
    }

    fn wants(&self, name: &str) -> bool {
        self.name.as_ref().is_none_or(|asked| asked == name)
    }
}

fn allowed(ratio: &str) -> Option<f64> {
    ratio.parse().ok().filter(|&ratio| ratio > 0.0)
}

fn main() -> ExitCode {
    let (cases, no_entries) = (cases::cases(), no_entries::case());
    let mut lines = calls::lines(&cases);
    lines.extend(cases.iter().map(phases::writing));
    lines.extend(no_entries::lines(&no_entries));
    let Some(asked) = Asked::read(&lines) else {
        eprintln!("usage: [NAME] [--most RATIO], where a NAME is one of bench/README.md");
        return ExitCode::from(2);
    };
    lines.retain(|line| line.names.iter().any(|name| asked.wants(name)));
    if asked.counted {
        counting::make(&mut lines);
        return ExitCode::SUCCESS;
    }
    let costs = measure(lines, &asked);
    print(&costs, &cases, &asked);
    status(&costs, &asked)
}

fn measure<'a>(lines: Vec<Line<'a>>, asked: &Asked) -> Vec<Cost<'a>> {
    let counts = counting::counts(asked.name.as_deref());
    if counts.is_none() {
        eprintln!("without valgrind there are times only, and no phases");
    }
    let count = |index: usize| counts.as_ref().map(|counts| counts[index].clone());
    let lines = lines.into_iter().enumerate();
    lines
        .map(|(index, line)| Cost::new(line, count(index)))
        .collect()
}

fn print(costs: &[Cost], cases: &[Case], asked: &Asked) {
    let apart = [phases::NAME, no_entries::NAME];
    let is_call = |cost: &&Cost| asked.wants(cost.name) && !apart.contains(&cost.name);
    let calls: Vec<&Cost> = costs.iter().filter(is_call).collect();
    if !calls.is_empty() {
        head("call");
        calls.into_iter().for_each(Cost::print);
    }
    if asked.wants(phases::NAME) && costs.iter().all(|cost| cost.counts.is_some()) {
        head("phase of shrink");
        cases.iter().for_each(|case| phases::print(case, costs));
    }
    if asked.wants(no_entries::NAME) {
        head("run");
        no_entries::print(costs);
    }
}

/// Fails where a ratio of times is above the largest allowed.
fn status(costs: &[Cost], asked: &Asked) -> ExitCode {
    let ratios = costs.iter().filter_map(|cost| cost.times.map(ratio));
    let largest = ratios.fold(0.0, f64::max);
    match asked.most {
        Some(most) if largest > most => {
            eprintln!("the ratio {largest:.2} is above {most}");
            ExitCode::from(1)
        }
        _ => ExitCode::SUCCESS,
    }
}
