// The tests of the judging of a file and of the field reader.
// Rests on comparison.rs, on the library and the second program, and on generate.rs and damage.rs.

mod limits;

use crate::comparison::Comparison;
use crate::damage::damaged;
use crate::generate::{
    blank, chain, encode, fields, scattered, t1, t2, t3, table, Random, T1_SHRUNK,
};
use crate::interface::judging::{self as library, Judged, Part};
use crate::second::file as second;

pub const OF_THE_PAPER: usize = 24;
const CUT: usize = 1_500;
const WITH_A_BYTE_CHANGED: usize = 50_000;
const OF_SIZES_ALONE: usize = 78_000;
const AT_THE_LIMITS: usize = 1_000;
const ACCEPTED: usize = 30_000;
const DAMAGED_ONCE: usize = 60_000;
const DAMAGED_MORE: usize = 60_000;
const RANDOM: usize = 40_000;
const RANDOM_BEHIND_VALID: usize = 40_000;
const LARGEST_AND_LONGER: usize = 3_000;

/// Files the tests of this module compare at least.
pub const LEAST_FILES: usize = OF_THE_PAPER
    + CUT
    + WITH_A_BYTE_CHANGED
    + OF_SIZES_ALONE
    + AT_THE_LIMITS
    + ACCEPTED
    + DAMAGED_ONCE
    + DAMAGED_MORE
    + RANDOM
    + RANDOM_BEHIND_VALID
    + LARGEST_AND_LONGER;

pub const T1: [u8; 40] = [
    1, 0, 6, 0, 5, 0, 2, 0, 0, 2, 0, 5, 0, 0, 1, 1, 0, 3, 0, 20, 0, 1, 0, 0, 0, 2, 0, 0, 0, 3, 0,
    2, 0, 2, 0, 3, 0, 3, 0, 0,
];

/// The last four are wrong numbers that keep a right one in their low bytes, and the largest.
const FIELD_NUMBERS: [usize; 10] = [
    0,
    1,
    2,
    3,
    4,
    5,
    0x101,
    0x1_0001,
    usize::MAX / 2 + 2,
    usize::MAX,
];

/// Judges the file, which is counted, and asks for its fields.
pub fn compare(comparison: &mut Comparison, file: &[u8]) -> Judged {
    let kept = file.to_vec();
    let judged = library::judge(file);
    comparison.demand(file, format_args!("judge"), judged, second_judge(file));
    for number in FIELD_NUMBERS {
        comparison.demand(
            file,
            format_args!("field {number}"),
            library::field(file, number),
            second_field(file, number),
        );
    }
    comparison.demand_kept(&kept, "file", &kept, file);
    comparison.count("judge", judged.number);
    judged
}

fn second_judge(file: &[u8]) -> Judged {
    match second::judge(file) {
        Ok(table) => Judged::accepted(table.states, table.signs, table.start),
        Err(refusal) => Judged::refused(refusal.number, refusal.place),
    }
}

fn second_field(file: &[u8], number: usize) -> Part {
    let second::Part { place, length } = second::field(file, number);
    Part { place, length }
}

/// Demands this answer, and compares.
fn expect(comparison: &mut Comparison, file: &[u8], expected: Judged) {
    let judged = compare(comparison, file);
    comparison.expect(file, format_args!("judge"), judged, expected);
}

/// One file made from each of the seeds that follow the first.
fn generated(first_seed: u64, files: usize, make: impl Fn(&mut Random) -> Vec<u8>) -> Comparison {
    Comparison::generated(first_seed, files, |random, comparison| {
        compare(comparison, &make(random));
    })
}

/// T1 with bytes changed: each a place and the byte it takes.
fn t1_with(changes: &[(usize, u8)]) -> Vec<u8> {
    let mut file = T1.to_vec();
    for &(place, byte) in changes {
        file[place] = byte;
    }
    file
}

fn and_one_more(mut file: Vec<u8>) -> Vec<u8> {
    file.push(0);
    file
}

/// Files whose answer the paper gives, or follows from the order in which it judges.
pub fn samples() -> [(Vec<u8>, Judged); OF_THE_PAPER] {
    let refused = Judged::refused;
    [
        (vec![], refused(1, 0)),
        (vec![1, 0], refused(1, 2)),
        (t1_with(&[(0, 2)]), refused(2, 0)),
        (t1_with(&[(2, 5)]), refused(4, 1)),
        (t1_with(&[(4, 0)]), refused(5, 3)),
        (t1_with(&[(8, 5)]), refused(6, 7)),
        (t1_with(&[(16, 2)]), refused(7, 16)),
        (t1_with(&[(39, 5)]), refused(8, 38)),
        (and_one_more(T1.to_vec()), refused(3, 40)),
        (encode(&blank(500, 64)), Judged::accepted(500, 64, 0)),
        (encode(&blank(1_024, 31)), Judged::accepted(1_024, 31, 0)),
        (encode(&blank(501, 64)), refused(5, 3)),
        (encode(&blank(1_024, 32)), refused(5, 3)),
        (encode(&t1()), Judged::accepted(5, 2, 0)),
        (encode(&t2()), Judged::accepted(9, 2, 0)),
        (encode(&t3()), Judged::accepted(6, 2, 0)),
        (encode(&blank(1, 1)), Judged::accepted(1, 1, 0)),
        (T1_SHRUNK.to_vec(), Judged::accepted(3, 2, 0)),
        (vec![2], refused(1, 1)),
        (vec![2, 0, 5], refused(2, 0)),
        (vec![1, 0, 5], refused(4, 1)),
        (t1_with(&[(35, 5)])[..39].to_vec(), refused(1, 39)),
        (t1_with(&[(4, 0), (8, 5)]), refused(5, 3)),
        (and_one_more(t1_with(&[(39, 5)])), refused(8, 38)),
    ]
}

#[test]
fn samples_of_the_paper() {
    let mut comparison = Comparison::new();
    for (file, expected) in samples() {
        expect(&mut comparison, &file, expected);
    }
    comparison.finish(OF_THE_PAPER);
}

#[test]
fn t1_is_encoded_and_read_as_the_paper_has_it() {
    assert_eq!(encode(&t1()), T1);
    let bodies = [(0, 0), (3, 6), (12, 5), (20, 20), (0, 0)];
    for (number, (place, length)) in bodies.into_iter().enumerate() {
        assert_eq!(library::field(&T1, number), Part { place, length });
        let second = second::field(&T1, number);
        assert_eq!((second.place, second.length), (place, length));
    }
}

fn small_files() -> Vec<Vec<u8>> {
    let random = &mut Random::new(1);
    let tables = [
        t1(),
        t2(),
        t3(),
        blank(1, 1),
        chain(random, 2, 1),
        scattered(random, 1, 5),
        scattered(random, 3, 3),
    ];
    tables.iter().map(encode).collect()
}

#[test]
fn cut_at_every_length() {
    let mut comparison = Comparison::new();
    let mut files = small_files();
    files.push(encode(&scattered(&mut Random::new(2), 257, 2)));
    for file in files {
        for length in 0..file.len() {
            expect(&mut comparison, &file[..length], Judged::refused(1, length));
        }
    }
    comparison.finish(CUT);
}

#[test]
fn each_byte_changed_to_every_value() {
    let mut comparison = Comparison::new();
    for mut file in small_files() {
        for place in 0..file.len() {
            let kept = file[place];
            for byte in 0..=255 {
                file[place] = byte;
                compare(&mut comparison, &file);
            }
            file[place] = kept;
        }
    }
    comparison.met([0, 2, 4, 5, 6, 7, 8], 250);
    comparison.finish(WITH_A_BYTE_CHANGED);
}

#[test]
fn generated_tables() {
    let mut comparison = Comparison::new();
    for seed in 100_000..100_000 + ACCEPTED as u64 {
        comparison.seeded(seed, |random, comparison| {
            let table = table(random);
            let expected = Judged::accepted(table.states(), table.signs, table.start);
            expect(comparison, &encode(&table), expected);
        });
    }
    comparison.finish(ACCEPTED);
}

#[test]
fn generated_tables_damaged_once() {
    let comparison = generated(1_000_000, DAMAGED_ONCE, |random| {
        let fields = fields(&table(random));
        damaged(random, fields, 1)
    });
    comparison.met(0..=8, 1_000);
    comparison.finish(DAMAGED_ONCE);
}

#[test]
fn generated_tables_damaged_several_times() {
    let comparison = generated(2_000_000, DAMAGED_MORE, |random| {
        let fields = fields(&table(random));
        let times = random.between(2, 5);
        damaged(random, fields, times)
    });
    comparison.met(1..=8, 500);
    comparison.finish(DAMAGED_MORE);
}

#[test]
fn random_bytes() {
    let comparison = generated(3_000_000, RANDOM, |random| {
        let length = random.below(60);
        let mut file = random.bytes(length);
        if random.below(4) > 0 {
            file.iter_mut().for_each(|byte| *byte %= 7);
        }
        file
    });
    comparison.met([1, 2, 4], 50);
    comparison.finish(RANDOM);
}

#[test]
fn random_bytes_behind_a_valid_beginning() {
    let comparison = generated(4_000_000, RANDOM_BEHIND_VALID, |random| {
        let mut file = encode(&table(random));
        file.truncate(random.below(file.len() + 1));
        let length = random.below(80);
        let most = random.one_of(&[2, 4, 256]);
        file.extend((0..length).map(|_| random.below(most) as u8));
        file
    });
    comparison.met(1..=8, 100);
    comparison.finish(RANDOM_BEHIND_VALID);
}
