// Lent slices of every length: none, one too few, exactly what is needed, and more.
// Rests on call.rs, lent.rs and the tables of generate.rs.

use crate::call::{refused, Answered, Call};
use crate::generate::{encode, t1, t2, t3};
use crate::lent::{Room, LEFTOVERS};

const CALLS: [Call; 8] = [
    Call::Layers,
    Call::Tell(0, 1),
    Call::Tell(0, 2),
    Call::Tell(4, 4),
    Call::Fresh,
    Call::Run(0),
    Call::Run(usize::MAX),
    Call::Shrink,
];

fn lengths(needed: usize) -> Vec<usize> {
    let mut lengths = vec![0, needed.saturating_sub(1), needed, needed + 3];
    lengths.dedup();
    lengths
}

/// Each length of each slice with each of the others.
fn rooms(needs: Room) -> Vec<Room> {
    let mut rooms = vec![];
    for work in lengths(needs.work) {
        for classes in lengths(needs.classes) {
            for pending in lengths(needs.pending) {
                rooms.extend(lengths(needs.bytes).into_iter().map(|bytes| Room {
                    work,
                    classes,
                    pending,
                    bytes,
                }));
            }
        }
    }
    rooms
}

/// The paper's refusal of a room, or the answer that is due with room enough.
fn answer_in(room: Room, needs: Room, due: &Answered) -> Answered {
    if room.work < needs.work {
        refused(11, needs.work)
    } else if room.classes < needs.classes || room.pending < needs.pending {
        refused(12, needs.classes)
    } else if room.bytes < needs.bytes {
        refused(12, needs.bytes)
    } else {
        due.clone()
    }
}

/// Counts the answers by their number, 0 for an accepted call.
fn check(file: &[u8], states: usize, call: Call, numbers: &mut [usize; 14]) {
    let due = call.ask(file, call.needs(states, file.len()), LEFTOVERS[0]);
    let bytes = due.as_ref().map_or(0, |answer| answer.bytes.len());
    let needs = call.needs(states, bytes);
    for room in rooms(needs) {
        for leftover in LEFTOVERS {
            let found = call.ask(file, room, leftover);
            let due = answer_in(room, needs, &due);
            assert_eq!(found, due, "{call:?}, {room:?}, {leftover:?}");
            numbers[found.map_or_else(|refusal| refusal.number, |_| 0)] += 1;
        }
    }
}

#[test]
fn slices_of_each_length_are_refused_or_answered() {
    let mut numbers = [0; 14];
    for table in [t1(), t2(), t3()] {
        for call in CALLS {
            check(&encode(&table), table.states(), call, &mut numbers);
        }
    }
    let [accepted, .., of_work, of_results, _] = numbers;
    assert!(accepted.min(of_work).min(of_results) >= 100, "{numbers:?}");
}
