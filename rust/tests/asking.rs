// What is asked, in and out of range: fields, signs, lines, states and lists.
// Rests on call.rs, lent.rs and the tables of generate.rs.

use crate::call::{refused, Answer, Answered, Call};
use crate::generate::{blank, encode, t1};
use crate::lent::{Memory, Room, LEFTOVERS};

/// None, and enough for every call on T1.
const ROOMS: [Room; 2] = [
    Room {
        work: 0,
        classes: 0,
        pending: 0,
        bytes: 0,
    },
    Room {
        work: 80,
        classes: 5,
        pending: 5,
        bytes: 40,
    },
];

fn answered(numbers: &[usize]) -> Answered {
    Ok(Answer::of(numbers, &[]))
}

fn check(file: &[u8], cases: &[(Call, Answered)]) {
    for (call, due) in cases {
        for (room, leftover) in ROOMS.into_iter().zip(LEFTOVERS) {
            assert_eq!(call.ask(file, room, leftover), *due, "{call:?}, {room:?}");
        }
    }
}

#[test]
fn fields_of_another_number_are_empty() {
    let cases = [0, 4, 257, usize::MAX].map(|number| (Call::Field(number), answered(&[0, 0])));
    check(&encode(&t1()), &cases);
}

#[test]
fn signs_out_of_range_are_refused_at_the_first() {
    let mut long = vec![1; 70_001];
    long[70_000] = 2;
    check(
        &encode(&t1()),
        &[
            (Call::Word(&[2]), refused(10, 0)),
            (Call::Word(&[0, 1, 255, 2]), refused(10, 2)),
            (Call::Word(&long), refused(10, 70_000)),
            (Call::Word(&long[..70_000]), answered(&[0])),
        ],
    );
}

/// Sign 10 goes from one state to the other, and the rest stays.
#[test]
fn lines_are_run_by_the_sign_plan() {
    let mut table = blank(2, 47);
    table.marks[1] = 1;
    table.next_states[47..].fill(1);
    table.next_states.swap(10, 57);
    check(
        &encode(&table),
        &[
            (Call::Line(b""), answered(&[0])),
            (Call::Line(b"a"), answered(&[1])),
            (Call::Line(b"1A+B=\r\n\0\xff"), answered(&[1])),
            (Call::Line(b"Aa"), answered(&[0])),
            (Call::Line(b"@B`b"), answered(&[0])),
            (Call::Word(&[47]), refused(10, 0)),
        ],
    );
    check(
        &encode(&t1()),
        &[
            (Call::Line(b""), refused(9, 0)),
            (Call::Line(b"a"), refused(9, 0)),
        ],
    );
}

/// The states are asked before the room is.
#[test]
fn states_out_of_range_are_refused() {
    let most = usize::MAX;
    let cases = [
        (5, 0, 0),
        (0, 5, 1),
        (5, 5, 0),
        (most, 0, 0),
        (0, most, 1),
        (most, most, 0),
        (65_536, 0, 0),
        (1, 65_540, 1),
    ];
    let cases = cases.map(|(first, second, place)| (Call::Tell(first, second), refused(10, place)));
    check(&encode(&t1()), &cases);
}

/// Class and pending lists of T1 with the least state where they fail.
const ILL_FORMED: [([u16; 5], [u16; 5], usize); 10] = [
    ([1, 1, 2, 2, 1], [0, 0, 0, 0, 0], 0),
    ([0, 2, 2, 2, 1], [0, 0, 0, 0, 0], 1),
    ([0, 0, 2, 2, 1], [0, 0, 0, 0, 0], 4),
    ([0, 0, 2, 2, 5], [0, 0, 0, 0, 0], 4),
    ([0, 0, 65_535, 2, 0], [0, 0, 0, 0, 0], 2),
    ([0, 0, 2, 2, 0], [3, 0, 0, 0, 0], 0),
    ([0, 0, 2, 2, 0], [0, 0, 65_535, 0, 0], 2),
    ([0, 0, 2, 2, 0], [0, 1, 0, 0, 0], 1),
    ([0, 0, 2, 2, 0], [2, 0, 2, 1, 1], 3),
    ([0, 0, 2, 2, 5], [0, 0, 0, 2, 0], 3),
];

/// As lists of exactly their length, and with more behind that isn't looked at.
#[test]
fn lists_that_are_not_well_formed_are_refused() {
    let file = encode(&t1());
    for (classes, pending, place) in ILL_FORMED {
        for budget in [0, 1, usize::MAX] {
            for (more, leftover) in [0, 3].into_iter().zip(LEFTOVERS) {
                let run = Call::Run(budget);
                let mut room = run.needs(5, 0);
                room.classes += more;
                room.pending += more;
                let mut memory = Memory::new(room, leftover);
                memory.hold_lists(&classes, &pending);
                let found = run.ask_in(&file, &mut memory);
                assert_eq!(
                    found,
                    refused(13, place),
                    "{classes:?}, {pending:?}, {budget}"
                );
            }
        }
    }
}

/// Classes that mix marks are refined as they are: all of T1 in one class splits nothing.
#[test]
fn lists_from_elsewhere_are_run() {
    let file = encode(&t1());
    for (pending, due) in [([0; 5], [0, 0]), ([2, 0, 0, 0, 0], [2, 10])] {
        for leftover in LEFTOVERS {
            let run = Call::Run(usize::MAX);
            let mut memory = Memory::new(run.needs(5, 0), leftover);
            memory.hold_lists(&[0; 5], &pending);
            let answer = run.ask_in(&file, &mut memory).unwrap();
            assert_eq!(
                (&answer.numbers[..], &answer.lists[..]),
                (&due[..], &[0; 10][..])
            );
        }
    }
}
