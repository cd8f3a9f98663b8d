// One call of the package, made on a file and lent memory, with what it must leave in them demanded.
// Rests on lent.rs.

use wylgentip::{Layers, Refusal, Run, Shrunk, Sizes, Told};

use crate::lent::{Leftover, Memory, Room};

/// A call with what it is asked; the number is a field's, or the budget of a run.
#[derive(Clone, Copy, Debug)]
pub enum Call<'a> {
    Judge,
    Field(usize),
    Word(&'a [u8]),
    Line(&'a [u8]),
    Layers,
    Tell(usize, usize),
    Fresh,
    Run(usize),
    Shrink,
}

/// An accepted call's numbers in the order the package has them, none for states that are alike and for
/// fresh lists; its class list with its pending list behind; and its word or shrunk file.
#[derive(Clone, Debug, Default, PartialEq, Eq)]
pub struct Answer {
    pub numbers: Vec<usize>,
    pub lists: Vec<u16>,
    pub bytes: Vec<u8>,
}

impl Answer {
    pub fn of(numbers: &[usize], bytes: &[u8]) -> Answer {
        Answer {
            numbers: numbers.to_vec(),
            lists: vec![],
            bytes: bytes.to_vec(),
        }
    }
}

pub type Answered = Result<Answer, Refusal>;

pub const fn refused(number: usize, place: usize) -> Answered {
    Err(Refusal { number, place })
}

/// The number of two bytes at this place of a file, 0 where it ends before.
pub fn number_at(file: &[u8], place: usize) -> usize {
    match file.get(place..place + 2) {
        Some(&[high, low]) => usize::from(u16::from_be_bytes([high, low])),
        _ => 0,
    }
}

/// The number of states of an accepted file.
fn states_of(file: &[u8]) -> usize {
    number_at(file, 3)
}

impl Call<'_> {
    /// The room that the call needs on an accepted file, which is what it writes: its bytes are as many
    /// as given.
    pub fn needs(self, states: usize, bytes: usize) -> Room {
        let lists = match self {
            Call::Layers => [16, 1, 0],
            Call::Tell(..) | Call::Shrink => [16, 0, 0],
            Call::Fresh => [0, 1, 1],
            Call::Run(_) => [16, 1, 1],
            _ => [0, 0, 0],
        };
        let [work, classes, pending] = lists.map(|numbers| numbers * states);
        Room {
            work,
            classes,
            pending,
            bytes,
        }
    }

    /// Makes the call in memory of this room; a run begins from fresh lists where the file has them.
    pub fn ask(self, file: &[u8], room: Room, leftover: Leftover) -> Answered {
        let mut memory = Memory::new(room, leftover);
        if let Call::Run(_) = self {
            let (mut classes, mut pending) = ([0; 1_024], [0; 1_024]);
            if wylgentip::fresh(file, &mut classes, &mut pending).is_ok() {
                let states = states_of(file);
                memory.hold_lists(&classes[..states], &pending[..states]);
            }
        }
        self.ask_in(file, &mut memory)
    }

    pub fn ask_in(self, file: &[u8], memory: &mut Memory) -> Answered {
        let lent = boxed(file);
        let made = self.make(&lent, memory);
        assert_eq!(*lent, *file);
        let written = match &made {
            Ok(answer) => self.needs(states_of(file), answer.bytes.len()),
            Err(Refusal { number: 12, .. }) => Room {
                work: self.needs(states_of(file), 0).work,
                ..Room::default()
            },
            Err(_) => Room::default(),
        };
        memory.demand_written(written);
        let mut answer = made?;
        let classes = &memory.classes.slice[..written.classes];
        let pending = &memory.pending.slice[..written.pending];
        answer.lists = [classes, pending].concat();
        assert_eq!(answer.bytes, memory.bytes.slice[..written.bytes]);
        Ok(answer)
    }

    /// The answer without its lists, which stand in lent memory.
    fn make(self, file: &[u8], memory: &mut Memory) -> Answered {
        let work = &mut memory.work.slice;
        let classes = &mut memory.classes.slice;
        let pending = &mut memory.pending.slice;
        let bytes = &mut memory.bytes.slice;
        Ok(match self {
            Call::Judge => {
                let Sizes {
                    states,
                    signs,
                    start,
                } = wylgentip::judge(file)?;
                Answer::of(&[states, signs, start], &[])
            }
            Call::Field(number) => {
                Answer::of(&place_and_length(file, wylgentip::field(file, number)), &[])
            }
            Call::Word(word) => Answer::of(&[wylgentip::run_word(file, &boxed(word))?.into()], &[]),
            Call::Line(line) => Answer::of(&[wylgentip::run_line(file, &boxed(line))?.into()], &[]),
            Call::Layers => {
                let Layers { classes, rounds } = wylgentip::layers(file, work, classes)?;
                Answer::of(&[classes, rounds], &[])
            }
            Call::Tell(first, second) => match wylgentip::tell(file, first, second, work, bytes)? {
                Told::Alike => Answer::default(),
                Told::Apart(word) => Answer::of(&[word.len()], word),
            },
            Call::Fresh => wylgentip::fresh(file, classes, pending).map(|()| Answer::default())?,
            Call::Run(budget) => {
                let Run { takes, entries } = wylgentip::run(file, budget, classes, pending, work)?;
                Answer::of(&[takes, entries], &[])
            }
            Call::Shrink => {
                let Shrunk { rows, file } = wylgentip::shrink(file, work, bytes)?;
                Answer::of(&[rows, file.len()], file)
            }
        })
    }
}

/// An allocation of exactly the bytes' length.
fn boxed(bytes: &[u8]) -> Box<[u8]> {
    bytes.into()
}

/// Of a part, counted from the file's first byte.
fn place_and_length(file: &[u8], part: &[u8]) -> [usize; 2] {
    [part.as_ptr() as usize - file.as_ptr() as usize, part.len()]
}
