// The paper's samples with the answers it states, in lent memory of exactly the length needed.
// Rests on call.rs, lent.rs and the tables of generate.rs.

use crate::call::{Answer, Call};
use crate::generate::{blank, encode, t1, t2, t3, Table, T1_SHRUNK};
use crate::lent::{Memory, LEFTOVERS};

/// A call with the numbers, the lists and the bytes of its answer.
type Case<'a> = (Call<'a>, &'a [usize], &'a [u16], &'a [u8]);

/// T1's class list with its pending list behind.
const T1_FRESH: [u16; 10] = [0, 0, 2, 2, 0, 0, 0, 2, 0, 0];
const T1_SPLIT: [u16; 10] = [0, 1, 2, 2, 1, 0, 0, 0, 0, 0];

fn check(table: &Table, cases: &[Case]) {
    let file = encode(table);
    for &(call, numbers, lists, bytes) in cases {
        let mut due = Answer::of(numbers, bytes);
        due.lists.extend(lists);
        let room = call.needs(table.states(), bytes.len());
        for leftover in LEFTOVERS {
            let found = call.ask(&file, room, leftover);
            assert_eq!(found, Ok(due.clone()), "{call:?}, {leftover:?}");
        }
    }
}

#[test]
fn t1_has_the_papers_answers() {
    check(
        &t1(),
        &[
            (Call::Judge, &[5, 2, 0], &[], &[]),
            (Call::Field(1), &[3, 6], &[], &[]),
            (Call::Field(2), &[12, 5], &[], &[]),
            (Call::Field(3), &[20, 20], &[], &[]),
            (Call::Word(&[]), &[0], &[], &[]),
            (Call::Word(&[0, 0]), &[1], &[], &[]),
            (Call::Word(&[0, 1]), &[0], &[], &[]),
            (Call::Layers, &[3, 1], &[0, 1, 2, 2, 1], &[]),
            (Call::Tell(0, 1), &[1], &[], &[0]),
            (Call::Tell(0, 2), &[0], &[], &[]),
            (Call::Tell(1, 4), &[], &[], &[]),
            (Call::Tell(3, 3), &[], &[], &[]),
            (Call::Fresh, &[], &T1_FRESH, &[]),
            (Call::Run(0), &[0, 0], &T1_FRESH, &[]),
            (Call::Run(4), &[4, 9], &T1_SPLIT, &[]),
            (Call::Run(65_536), &[4, 9], &T1_SPLIT, &[]),
            (Call::Run(usize::MAX), &[4, 9], &T1_SPLIT, &[]),
            (Call::Shrink, &[3, 30], &[], &T1_SHRUNK),
        ],
    );
}

#[test]
fn t2_and_t3_have_the_papers_answers() {
    let classes = [0, 1, 2, 3, 4, 4, 6, 6, 8];
    let fresh = [0, 0, 0, 0, 0, 0, 6, 6, 6, 0, 0, 0, 0, 0, 0, 2, 0, 0];
    check(
        &t2(),
        &[
            (Call::Judge, &[9, 2, 0], &[], &[]),
            (Call::Word(&[0, 0, 1]), &[1], &[], &[]),
            (Call::Layers, &[7, 2], &classes, &[]),
            (Call::Tell(0, 2), &[2], &[], &[0, 1]),
            (Call::Fresh, &[], &fresh, &[]),
        ],
    );
    let split = [0, 1, 2, 3, 4, 5, 0, 0, 0, 0, 0, 0];
    check(
        &t3(),
        &[
            (Call::Judge, &[6, 2, 0], &[], &[]),
            (Call::Word(&[0, 1, 0, 0, 0, 1, 0]), &[1], &[], &[]),
            (Call::Layers, &[6, 4], &split[..6], &[]),
            (Call::Tell(0, 1), &[4], &[], &[0, 0, 0, 0]),
            (Call::Run(usize::MAX), &[10, 10], &split, &[]),
            (Call::Shrink, &[6, 45], &[], &encode(&t3())),
        ],
    );
}

#[test]
fn one_state_has_the_papers_answers() {
    let table = blank(1, 1);
    check(
        &table,
        &[
            (Call::Judge, &[1, 1, 0], &[], &[]),
            (Call::Word(&[0]), &[0], &[], &[]),
            (Call::Layers, &[1, 0], &[0], &[]),
            (Call::Fresh, &[], &[0, 0], &[]),
            (Call::Run(usize::MAX), &[0, 0], &[0, 0], &[]),
            (Call::Shrink, &[1, 18], &[], &encode(&table)),
        ],
    );
}

/// A run of budget 1 is a take, and the next one goes on from its lists.
#[test]
fn t1_is_split_take_by_take() {
    let file = encode(&t1());
    let take = Call::Run(1);
    for leftover in LEFTOVERS {
        let mut lists = T1_FRESH.to_vec();
        for due in [[1, 2], [1, 4], [1, 3], [1, 0], [0, 0]] {
            let mut memory = Memory::new(take.needs(5, 0), leftover);
            memory.hold_lists(&lists[..5], &lists[5..]);
            let answer = take.ask_in(&file, &mut memory).unwrap();
            assert_eq!(answer.numbers, due);
            lists = answer.lists;
        }
        assert_eq!(lists, T1_SPLIT);
    }
}

/// The paper states no entries.
#[test]
fn t2_is_split_in_twelve_takes() {
    let run = Call::Run(65_535);
    let room = run.needs(9, 0);
    let answer = run.ask(&encode(&t2()), room, LEFTOVERS[0]).unwrap();
    assert_eq!(answer.numbers[0], 12);
    assert_eq!(answer.lists[..9], [0, 1, 2, 3, 4, 4, 6, 6, 8]);
    assert_eq!(answer.lists[9..], [0; 9]);
}
