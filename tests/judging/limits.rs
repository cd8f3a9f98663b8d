// The tests of the judging at the limits: sizes in and out of range, and the largest file.
// Rests on mod.rs and generate.rs.

use super::{compare, expect, AT_THE_LIMITS, LARGEST_AND_LONGER, OF_SIZES_ALONE, T1};
use crate::comparison::Comparison;
use crate::generate::{blank, encode, file_of, scattered, sizes_field};
use crate::interface::judging::Judged;

fn in_range(states: usize, signs: usize) -> bool {
    (1..=1_024).contains(&states) && (1..=64).contains(&signs) && states * signs <= 32_000
}

/// A file that ends with field 1.
fn compare_sizes(comparison: &mut Comparison, states: usize, signs: usize) {
    let expected = match in_range(states, signs) {
        true => Judged::refused(1, 9),
        false => Judged::refused(5, 3),
    };
    expect(
        comparison,
        &file_of(&[sizes_field(states, signs, 0)]),
        expected,
    );
}

#[test]
fn sizes_in_and_out_of_range() {
    let mut comparison = Comparison::new();
    for states in 0..=1_100 {
        for signs in 0..=70 {
            compare_sizes(&mut comparison, states, signs);
        }
    }
    let far = [255, 256, 257, 1_025, 4_096, 32_000, 32_768, 65_281, 65_535];
    for states in far {
        for signs in [0, 1, 64].into_iter().chain(far) {
            compare_sizes(&mut comparison, states, signs);
            compare_sizes(&mut comparison, signs, states);
        }
    }
    comparison.finish(OF_SIZES_ALONE);
}

/// Whole files of these sizes, with the start at and beyond its own limit too.
fn compare_whole(comparison: &mut Comparison, states: usize, signs: usize) {
    let mut table = blank(states, signs);
    for start in [0, states.saturating_sub(1), states, states + 1] {
        table.start = start;
        let expected = match (in_range(states, signs), start < states) {
            (true, true) => Judged::accepted(states, signs, start),
            (true, false) => Judged::refused(6, 7),
            (false, _) => Judged::refused(5, 3),
        };
        expect(comparison, &encode(&table), expected);
    }
}

#[test]
fn whole_files_at_and_beyond_each_limit() {
    let mut comparison = Comparison::new();
    for states in [0, 1, 2, 499, 500, 501, 1_000, 1_001, 1_024, 1_025] {
        for signs in [0, 1, 2, 31, 32, 33, 64, 65] {
            compare_whole(&mut comparison, states, signs);
        }
    }
    for signs in 1..=64 {
        let most_states = (32_000 / signs).min(1_024);
        for states in most_states - 1..=most_states + 1 {
            compare_whole(&mut comparison, states, signs);
        }
    }
    comparison.finish(AT_THE_LIMITS);
}

#[test]
fn the_largest_file_and_longer_ones() {
    let mut comparison = Comparison::new();
    comparison.seeded(5, |random, comparison| {
        let file = encode(&scattered(random, 1_000, 32));
        assert_eq!(file.len(), 65_015);
        for length in (0..1_100)
            .chain((1_100..65_000).step_by(97))
            .chain(65_000..65_015)
        {
            expect(comparison, &file[..length], Judged::refused(1, length));
        }
        bad_marks_and_next_states(comparison, file.clone());
        for more in [1, 2, 3, 520, 521, 522, 65_536, 1 << 20] {
            let mut longer = file.clone();
            longer.extend(random.bytes(more));
            expect(comparison, &longer, Judged::refused(3, 65_015));
            let mut longer = T1.to_vec();
            longer.resize(T1.len() + more, 0);
            expect(comparison, &longer, Judged::refused(3, 40));
            compare(comparison, &random.bytes(65_015 + more));
        }
    });
    comparison.finish(LARGEST_AND_LONGER);
}

/// Each in turn the first of its kind in the file of 1,000 states and 32 signs.
fn bad_marks_and_next_states(comparison: &mut Comparison, mut file: Vec<u8>) {
    let last = file.len() - 2;
    file[last..].fill(255);
    for place in (1_015..last).step_by(82).chain([last]) {
        let kept = [file[place], file[place + 1]];
        file[place..place + 2].copy_from_slice(&1_000_u16.to_be_bytes());
        expect(comparison, &file, Judged::refused(8, place));
        file[place..place + 2].copy_from_slice(&kept);
    }
    for place in (12..1_012).rev() {
        file[place] = 2;
        expect(comparison, &file, Judged::refused(7, place));
    }
}
