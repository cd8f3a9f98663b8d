// The tests of running words and lines.
// Rests on comparison.rs, on the library and the second program, and on generate.rs.

use crate::comparison::{hex, Comparison};
use crate::generate::{blank, encode, shaped, small_table, t1, t2, t3, word, Random, Table};
use crate::interface::running::{self as library, Ran};
use crate::second::file::Refusal;
use crate::second::running as second;

const EMPTY: usize = 4_000;
const ALL_SHORT_WORDS: usize = 3_069;
const WITH_A_BAD_SIGN: usize = 15_000;
const OF_TWO_BYTES: usize = 65_536;
const OF_ANY_LENGTH: usize = 200;
const OTHER_SIGNS: usize = 500;

/// The signs of a table that lines run over.
const LINE_SIGNS: usize = 47;

/// A call on a file and a word or line, of both programs.
struct Call {
    name: &'static str,
    library: fn(&[u8], &[u8]) -> Ran,
    second: fn(&[u8], &[u8]) -> Result<u8, Refusal>,
}

const WORD: Call = Call {
    name: "run_word",
    library: library::run_word,
    second: second::run_word,
};

const LINE: Call = Call {
    name: "run_line",
    library: library::run_line,
    second: second::run_line,
};

fn compare(comparison: &mut Comparison, call: &Call, file: &[u8], lent: &[u8]) -> Ran {
    let (kept_file, kept) = (file.to_vec(), lent.to_vec());
    let second = match (call.second)(file, lent) {
        Ok(mark) => Ran::accepted(usize::from(mark)),
        Err(refusal) => Ran::refused(refusal.number, refusal.place),
    };
    let ran = (call.library)(file, lent);
    comparison.demand(
        file,
        format_args!("{} on {}", call.name, hex(lent)),
        ran,
        second,
    );
    comparison.demand_kept(&kept_file, "file", &kept_file, file);
    comparison.demand_kept(file, "word or line", &kept, lent);
    comparison.count(call.name, ran.number);
    ran
}

fn expect(comparison: &mut Comparison, call: &Call, file: &[u8], lent: &[u8], expected: Ran) {
    let ran = compare(comparison, call, file, lent);
    let what = format_args!("{} on {}", call.name, hex(lent));
    comparison.expect(file, what, ran, expected);
}

#[test]
fn empty_words_and_lines() {
    let comparison = Comparison::generated(10_000_000, EMPTY / 2, |random, comparison| {
        let table = small_table(random);
        let expected = Ran::accepted(usize::from(table.marks[table.start]));
        expect(comparison, &WORD, &encode(&table), &[], expected);
        let table = line_table(random);
        let expected = Ran::accepted(usize::from(table.marks[table.start]));
        expect(comparison, &LINE, &encode(&table), &[], expected);
    });
    comparison.finish(EMPTY);
}

/// Every word of 0 to 9 signs, on each of the samples.
#[test]
fn all_short_words() {
    let mut comparison = Comparison::new();
    for table in [t1(), t2(), t3()] {
        let file = encode(&table);
        for length in 0..=9 {
            for bits in 0..1_usize << length {
                let word: Vec<u8> = (0..length).map(|sign| (bits >> sign & 1) as u8).collect();
                compare(&mut comparison, &WORD, &file, &word);
            }
        }
    }
    let file = encode(&t1());
    for (word, kind) in [
        (&[][..], 0),
        (&[0, 0], 1),
        (&[0, 1], 0),
        (&[1, 0, 0, 1, 0], 1),
    ] {
        expect(&mut comparison, &WORD, &file, word, Ran::accepted(kind));
    }
    comparison.met([0], ALL_SHORT_WORDS);
    comparison.finish(ALL_SHORT_WORDS);
}

/// The first bad sign stands at each index; others may follow it.
#[test]
fn a_bad_sign_at_each_index() {
    let comparison = Comparison::generated(11_000_000, 400, |random, comparison| {
        let table = small_table(random);
        let file = encode(&table);
        let length = random.between(1, 30);
        for index in 0..length {
            for bad in [table.signs, random.between(table.signs, 255), 255] {
                let mut word = word(random, table.signs, length);
                word[index] = bad as u8;
                if random.below(2) == 0 {
                    word[index..].fill(bad as u8);
                }
                expect(comparison, &WORD, &file, &word, Ran::refused(10, index));
            }
        }
    });
    comparison.met([10], WITH_A_BAD_SIGN);
    comparison.finish(WITH_A_BAD_SIGN);
}

#[test]
fn a_bad_sign_far_on() {
    let mut comparison = Comparison::new();
    for index in [65_535, 65_536, 65_537, 70_000] {
        let mut word = vec![1; 70_001];
        word[index] = 2;
        let expected = Ran::refused(10, index);
        expect(&mut comparison, &WORD, &encode(&t1()), &word, expected);
    }
    comparison.finish(4);
}

/// From state 0 each sign leads to a state of its own, and from there only the same sign to the
/// state that accepts.
fn telling_signs_apart() -> Table {
    let (accepting, other) = (LINE_SIGNS + 1, LINE_SIGNS + 2);
    let mut table = blank(LINE_SIGNS + 3, LINE_SIGNS);
    table.marks[accepting] = 1;
    table.next_states.fill(other as u16);
    for sign in 0..LINE_SIGNS {
        table.next_states[sign] = sign as u16 + 1;
        table.next_states[(sign + 1) * LINE_SIGNS + sign] = accepting as u16;
    }
    table
}

/// The signs of the plan, in the order of the paper, as bytes; then some of the bytes of sign 46.
const PLAN: &[u8; 47] = b"0123456789ABCDEFGHIJKLMNOPQRSTUVWXYZ +-./,:=\r\n\0";

/// A line of two bytes is accepted where they have the same sign.
#[test]
fn every_pair_of_bytes() {
    let mut comparison = Comparison::new();
    let file = encode(&telling_signs_apart());
    for first in 0..=255 {
        for second in 0..=255 {
            compare(&mut comparison, &LINE, &file, &[first, second]);
        }
        let planned = |byte: &u8| *byte == first.to_ascii_uppercase();
        let sign = PLAN.iter().position(planned).unwrap_or(46);
        for (index, &byte) in PLAN.iter().enumerate() {
            let expected = Ran::accepted(usize::from(index == sign));
            expect(&mut comparison, &LINE, &file, &[first, byte], expected);
        }
    }
    comparison.met([0], OF_TWO_BYTES);
    comparison.finish(OF_TWO_BYTES);
}

/// Mostly small.
pub fn line_table(random: &mut Random) -> Table {
    let states = match random.below(64) {
        0 => random.between(13, 680),
        _ => random.between(1, 12),
    };
    shaped(random, states, LINE_SIGNS)
}

/// Half of the bytes have a sign of their own.
fn line(random: &mut Random, length: usize) -> Vec<u8> {
    let mut line = random.bytes(length);
    for byte in line.iter_mut() {
        if *byte & 1 == 0 {
            *byte = random.one_of(PLAN);
        }
    }
    line
}

#[test]
fn lines_and_words_of_any_length() {
    let comparison = Comparison::generated(12_000_000, OF_ANY_LENGTH / 2, |random, comparison| {
        let file = encode(&line_table(random));
        let length = match random.below(4) {
            0 => random.one_of(&[255, 256, 65_535, 65_536, 65_537, 100_000]),
            _ => random.below(100_001),
        };
        let (line, word) = (line(random, length), word(random, LINE_SIGNS, length));
        compare(comparison, &LINE, &file, &line);
        compare(comparison, &WORD, &file, &word);
    });
    comparison.met([0], OF_ANY_LENGTH);
    comparison.finish(OF_ANY_LENGTH);
}

#[test]
fn lines_over_other_signs() {
    let comparison = Comparison::generated(13_000_000, 10, |random, comparison| {
        for signs in (1..=64).filter(|&signs| signs != LINE_SIGNS) {
            let states = random.between(1, 5);
            let file = encode(&shaped(random, states, signs));
            let length = random.below(9);
            let line = line(random, length);
            expect(comparison, &LINE, &file, &line, Ran::refused(9, 0));
        }
    });
    comparison.met([9], OTHER_SIGNS);
    comparison.finish(OTHER_SIGNS);
}

/// A third of the words may have a bad sign.
fn any_word(random: &mut Random, signs: usize) -> Vec<u8> {
    let length = random.below(40);
    match random.below(3) {
        0 => word(random, signs + 1, length),
        _ => word(random, signs, length),
    }
}

/// A word and a line, on a file that may be the table's with damage.
pub fn compare_any(random: &mut Random, comparison: &mut Comparison, table: &Table, file: &[u8]) {
    let word = any_word(random, table.signs);
    compare(comparison, &WORD, file, &word);
    let length = random.below(40);
    let line = line(random, length);
    compare(comparison, &LINE, file, &line);
}
