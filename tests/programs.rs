// The tests of the programs `report` and `shrink`, run as they stand in the folders out/ of their
// crates, where `rt ci` and `rt run` build them: standard output, standard error and exit status.
// Rests on printed.rs and comparison.rs, on the second program, and on generate.rs and damage.rs.
//
// The programs read at most 65,536 bytes; the second program is given the whole input. A field's
// length is judged before its body, so whatever is looked at ends within 65,015 bytes, and a longer
// input is never refused by 1, the one refusal whose place is the input's length. So both must give
// the same answer on longer inputs too, and that is compared.

use std::fs::read;
use std::process::Command;

use crate::comparison::Comparison;
use crate::damage::damaged;
use crate::generate::{chain, encode, fields, scattered, table, Random, Table, T1_SHRUNK};
use crate::judging::{samples, OF_THE_PAPER, T1};
use crate::largest::{largest_tables, LARGEST_TABLES};
use crate::printed::{run, Printed};
use crate::second::file::judge;
use crate::second::lent::work_length;
use crate::second::reporting;
use crate::second::shrinking::shrink;

const MOST_READ: usize = 65_536;
const GENERATED: usize = 1_200;
const LEAST_ACCEPTED: usize = 300;
const LEAST_REFUSED: usize = 20;
const LEAST_LONGER: usize = 50;
const LEAST_EMPTY: usize = 20;

/// A program built, and what the second program says it prints on a file.
struct Program {
    path: &'static str,
    second: fn(&[u8]) -> Printed,
}

const REPORT: Program = Program {
    path: "crates/report/out/report",
    second: |file| Printed::on_output(reporting::report(file)),
};

const SHRINK: Program = Program {
    path: "crates/shrink/out/shrink",
    second: second_shrink,
};

fn second_shrink(file: &[u8]) -> Printed {
    let states = judge(file).map_or(0, |table| table.states);
    let mut out = vec![0; file.len()];
    match shrink(file, &mut vec![0; work_length(states)], &mut out) {
        Ok(shrunk) => Printed::on_output(&out[..shrunk.length]),
        Err(refusal) => Printed::on_error(reporting::refused(refusal)),
    }
}

/// Gives what the program printed.
fn compare(comparison: &mut Comparison, program: &Program, file: &[u8]) -> Printed {
    let printed = run(program.path, &[file]);
    let second = (program.second)(file);
    comparison.demand(file, format_args!("{}", program.path), &printed, &second);
    comparison.count(
        program.path,
        judge(file).map_or_else(|refusal| refusal.number, |_| 0),
    );
    printed
}

fn expect(comparison: &mut Comparison, program: &Program, file: &[u8], expected: Printed) {
    let printed = compare(comparison, program, file);
    comparison.expect(file, format_args!("{}", program.path), printed, expected);
}

/// A refusal stands on standard output for `report`, on standard error for `shrink`.
fn refused_lines(number: usize, place: usize) -> [(Program, Printed); 2] {
    let line = format!("refused {number} {place}\n");
    [
        (REPORT, Printed::on_output(line.clone())),
        (SHRINK, Printed::on_error(line)),
    ]
}

fn expect_refused(comparison: &mut Comparison, file: &[u8], number: usize, place: usize) {
    for (program, expected) in refused_lines(number, place) {
        expect(comparison, &program, file, expected);
    }
}

#[test]
fn t1_and_its_shrunk_file() {
    let example = read("examples/t1.table").expect("the example");
    assert_eq!(example, T1);
    let mut comparison = Comparison::new();
    for (file, report) in [
        (
            &T1[..],
            "sizes 5 2 0\nfound 3 1 4 9 3\n0 0\n1 1\n2 2\n3 2\n4 1\n",
        ),
        (&T1_SHRUNK, "sizes 3 2 0\nfound 3 1 4 5 3\n0 0\n1 1\n2 2\n"),
    ] {
        expect(&mut comparison, &REPORT, file, Printed::on_output(report));
        expect(
            &mut comparison,
            &SHRINK,
            file,
            Printed::on_output(T1_SHRUNK),
        );
    }
    comparison.finish(4);
}

#[test]
fn samples_of_the_paper() {
    let mut comparison = Comparison::new();
    for (file, judged) in samples() {
        if judged.number == 0 {
            compare(&mut comparison, &REPORT, &file);
            compare(&mut comparison, &SHRINK, &file);
        } else {
            expect_refused(&mut comparison, &file, judged.number, judged.place);
        }
    }
    comparison.met(0..=8, 2);
    comparison.finish(2 * OF_THE_PAPER);
}

#[test]
fn a_closed_input() {
    for (program, expected) in refused_lines(1, 0) {
        let output = Command::new("sh")
            .args(["-c", "exec \"$0\" <&-", program.path])
            .output();
        assert_eq!(Printed::from(output.expect("a shell")), expected);
    }
}

#[test]
fn input_in_parts() {
    for program in [REPORT, SHRINK] {
        let parts = [&T1[..7], &T1[7..8], &T1[8..]];
        assert_eq!(run(program.path, &parts), (program.second)(&T1));
    }
}

#[test]
fn about_as_many_bytes_as_are_read_and_more() {
    let mut comparison = Comparison::new();
    comparison.seeded(70, |random, comparison| {
        let mut file = encode(&scattered(random, 1_000, 32));
        assert_eq!(file.len(), 65_015);
        for length in [65_016, 65_535, 65_536, 65_537, 70_000, 200_000] {
            expect_refused(comparison, &vec![0; length], 2, 0);
            file.resize(length, 0);
            expect_refused(comparison, &file, 3, 65_015);
        }
    });
    comparison.finish(24);
}

/// From the last state to the first, so that none can go and each round parts one state more.
fn backward_chain(random: &mut Random) -> Table {
    let mut table = chain(random, 1_024, 31);
    table.start = 1_023;
    table.marks.reverse();
    table.next_states = table
        .next_states
        .rchunks(31)
        .flatten()
        .map(|next| 1_023 - next)
        .collect();
    table
}

/// Each is shrunk, reported, and its shrunk file shrunk again.
#[test]
fn largest() {
    let mut comparison = Comparison::new();
    comparison.seeded(71, |random, comparison| {
        for table in largest_tables(random) {
            let file = encode(&table);
            compare(comparison, &REPORT, &file);
            let shrunk = compare(comparison, &SHRINK, &file);
            expect(comparison, &SHRINK, &shrunk.output.clone(), shrunk);
        }
        let file = encode(&backward_chain(random));
        expect(comparison, &SHRINK, &file, Printed::on_output(file.clone()));
    });
    comparison.finish(3 * LARGEST_TABLES + 1);
}

/// Whole, damaged, empty, or followed by so many bytes that the program can't read them all.
fn any_file(random: &mut Random) -> Vec<u8> {
    let table = table(random);
    let times_damaged = random.one_of(&[0, 0, 1, 1, 2]);
    let mut file = damaged(random, fields(&table), times_damaged);
    match random.below(24) {
        0 => file.clear(),
        1 | 2 => {
            let length = MOST_READ + random.between(1, 5_000);
            let behind = random.bytes(length);
            file.extend(behind);
        }
        _ => {}
    }
    file
}

fn generated(program: &Program, first_seed: u64) {
    let mut comparison = Comparison::new();
    let (mut longer, mut empty) = (0, 0);
    for seed in first_seed..first_seed + GENERATED as u64 {
        comparison.seeded(seed, |random, comparison| {
            let file = any_file(random);
            longer += usize::from(file.len() > MOST_READ);
            empty += usize::from(file.is_empty());
            compare(comparison, program, &file);
        });
    }
    assert!(longer >= LEAST_LONGER, "{longer} longer files");
    assert!(empty >= LEAST_EMPTY, "{empty} empty files");
    comparison.met([0], LEAST_ACCEPTED);
    comparison.met(1..=8, LEAST_REFUSED);
    comparison.finish(GENERATED);
}

#[test]
fn reports_on_generated_files() {
    generated(&REPORT, 72_000_000);
}

#[test]
fn shrunk_generated_files() {
    generated(&SHRINK, 73_000_000);
}
