// Every call on each of many generated tables, part of them damaged; and the same until stopped.
// Rests on the comparisons of the modules of each subject, and on generate.rs and damage.rs.

use std::env;
use std::time::{Duration, Instant, SystemTime, UNIX_EPOCH};

use crate::comparison::Comparison;
use crate::damage::damaged;
use crate::generate::{fields, small_table, table, Random, Table};
use crate::running::line_table;
use crate::{judging, layering, running, shrinking, splitting, telling};

/// Tables of each of the four parts, which run side by side.
const OF_A_PART: usize = 25_000;

/// Tables the tests of this module compare at least.
pub const LEAST_TABLES: usize = 4 * OF_A_PART;

/// Each number a call can give is met at least so often in each part.
const LEAST_MET: usize = 300;

/// Runs from fresh lists in each part; from any lists one is made on each table.
const FROM_FRESH: usize = 10_000;

/// The calls, and which numbers they can give after those of the file. The fields of each file that
/// is judged are asked for with it.
const CALLS: [(&str, &[usize]); 8] = [
    ("judge", &[]),
    ("run_word", &[10]),
    ("run_line", &[9]),
    ("layers", &[11, 12]),
    ("tell", &[10, 11, 12]),
    ("fresh", &[12]),
    ("run", &[11, 12, 13]),
    ("shrink", &[11, 12]),
];

/// Mostly small.
fn any_table(random: &mut Random) -> Table {
    match random.below(64) {
        0 => table(random),
        1..=12 => line_table(random),
        _ => small_table(random),
    }
}

fn compare_every_call(random: &mut Random, comparison: &mut Comparison) {
    let table = any_table(random);
    let times_damaged = random.one_of(&[0, 0, 0, 0, 1, 2]);
    let file = damaged(random, fields(&table), times_damaged);
    judging::compare(comparison, &file);
    for compare_any in [
        running::compare_any,
        layering::compare_any,
        telling::compare_any,
        splitting::compare_any,
        shrinking::compare_any,
    ] {
        compare_any(random, comparison, &table, &file);
    }
}

fn part(first_seed: u64) {
    let comparison = Comparison::generated(first_seed, OF_A_PART, compare_every_call);
    for (call, numbers) in CALLS {
        assert!(comparison.calls(call) >= OF_A_PART);
        comparison.met_by(call, (0..=8).chain(numbers.iter().copied()), LEAST_MET);
    }
    let from_fresh = comparison.calls("run") - OF_A_PART;
    assert!(from_fresh >= FROM_FRESH, "{from_fresh} runs from fresh");
    comparison.finish(CALLS.len() * OF_A_PART);
}

#[test]
fn first_part() {
    part(60_000_000);
}

#[test]
fn second_part() {
    part(61_000_000);
}

#[test]
fn third_part() {
    part(62_000_000);
}

#[test]
fn fourth_part() {
    part(63_000_000);
}

const BETWEEN_LINES: Duration = Duration::from_secs(10);

/// That of the environment's FIRST_SEED, or else by the clock.
fn first_seed() -> u64 {
    match env::var("FIRST_SEED") {
        Ok(seed) => seed.parse().expect("a seed is a number"),
        Err(_) => {
            let since = SystemTime::now().duration_since(UNIX_EPOCH);
            since.expect("a clock past 1970").as_nanos() as u64
        }
    }
}

/// Ends only where a difference is found, whose seed is named.
#[test]
#[ignore = "goes on until it is stopped"]
fn until_stopped() {
    let first_seed = first_seed();
    println!("first seed {first_seed}");
    let mut comparison = Comparison::new();
    let mut last_line = Instant::now();
    for (tables, seed) in (0_usize..).zip(first_seed..) {
        if last_line.elapsed() >= BETWEEN_LINES {
            println!("{tables} tables compared, before seed {seed}");
            last_line = Instant::now();
        }
        comparison.seeded(seed, compare_every_call);
    }
}
