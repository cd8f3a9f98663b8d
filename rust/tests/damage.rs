// Damaged files: T1 cut, lengthened and with each byte changed, and sizes at the edges of their ranges.
// Rests on call.rs, lent.rs and the tables of generate.rs.

use crate::call::{number_at, refused, Call};
use crate::generate::{blank, encode, scattered, t1, Random};
use crate::lent::{Leftover, LEFTOVERS};

const CALLS: [Call; 9] = [
    Call::Judge,
    Call::Field(3),
    Call::Word(&[0, 1]),
    Call::Line(b"a"),
    Call::Layers,
    Call::Tell(0, 1),
    Call::Fresh,
    Call::Run(usize::MAX),
    Call::Shrink,
];

/// Every call gives the file's refusal, and the field reader the empty part, whatever is lent.
fn check_refused(file: &[u8], number: usize, place: usize) {
    let due = refused(number, place);
    for call in CALLS {
        for (states, leftover) in [0, 5].into_iter().zip(LEFTOVERS) {
            let found = call.ask(file, call.needs(states, 8 * states), leftover);
            match call {
                Call::Field(_) => assert_eq!(found.unwrap().numbers, [0, 0]),
                _ => assert_eq!(found, due, "{call:?}, {file:?}"),
            }
        }
    }
}

/// Every call accepts the file, but for the line where k isn't 47; both ways find the same classes, by
/// k × (m − 1) takes, and the shrunk file has at most a row a class.
fn check_accepted(file: &[u8], leftover: Leftover) {
    let [states, signs] = [3, 5].map(|place| number_at(file, place));
    let ask = |call: Call| call.ask(file, call.needs(states, file.len()), leftover);
    assert_eq!(ask(Call::Line(b"a")), refused(9, 0));
    let accept =
        |call: Call| ask(call).unwrap_or_else(|refusal| panic!("{call:?}, {file:?}: {refusal}"));
    for call in [
        Call::Judge,
        Call::Field(3),
        Call::Word(&[0, 1]),
        Call::Tell(0, 1),
        Call::Fresh,
    ] {
        accept(call);
    }
    let layers = accept(Call::Layers);
    let run = accept(Call::Run(usize::MAX));
    let classes = layers.numbers[0];
    assert_eq!(run.lists[..states], layers.lists);
    assert_eq!(run.numbers[0], signs * (classes - 1));
    assert!(accept(Call::Shrink).numbers[0] <= classes);
}

#[test]
fn cut_files_are_refused() {
    let file = encode(&t1());
    for length in 0..file.len() {
        check_refused(&file[..length], 1, length);
    }
}

#[test]
fn bytes_behind_are_refused_at_the_first() {
    for more in [1, 2, 3, 255, 65_536] {
        let mut file = encode(&t1());
        file.resize(40 + more, 1);
        check_refused(&file, 3, 40);
    }
}

/// The refusal of T1 with a byte changed, which is that of the row of the paper's table that the byte is in.
fn refusal_of_changed(file: &[u8], place: usize) -> Option<(usize, usize)> {
    let number = |place| number_at(file, place);
    match place {
        0 | 9 | 17 => Some((2, place)),
        1 | 2 => Some((4, 1)),
        3 | 4 if !(1..=1_024).contains(&number(3)) => Some((5, 3)),
        5 | 6 if !(1..=64).contains(&number(5)) => Some((5, 3)),
        3 | 4 | 10 | 11 => Some((4, 10)),
        5 | 6 | 18 | 19 => Some((4, 18)),
        7 | 8 => (number(7) >= 5).then_some((6, 7)),
        12..=16 => (file[place] > 1).then_some((7, place)),
        _ => (number(place & !1) >= 5).then_some((8, place & !1)),
    }
}

#[test]
fn changed_bytes_are_refused_by_their_row() {
    let kept = encode(&t1());
    let mut accepted = 0;
    for place in 0..kept.len() {
        for byte in [0, 1, 2, 3, 4, 5, 6, 7, 64, 65, 127, 128, 255] {
            let mut file = kept.clone();
            file[place] = byte;
            if file == kept {
                continue;
            }
            match refusal_of_changed(&file, place) {
                Some((number, place)) => check_refused(&file, number, place),
                None => {
                    check_accepted(&file, LEFTOVERS[place % 2]);
                    accepted += 1;
                }
            }
        }
    }
    assert!(accepted >= 40, "{accepted}");
}

#[test]
fn sizes_at_the_edges_of_their_ranges() {
    for (states, signs) in [(500, 64), (1_024, 31)] {
        let table = scattered(&mut Random::new(1), states, signs);
        check_accepted(&encode(&table), Leftover::Random);
    }
    for (states, signs) in [(501, 64), (1_024, 32), (0, 1), (1_025, 1), (1, 0), (1, 65)] {
        check_refused(&encode(&blank(states, signs)), 5, 3);
    }
}
