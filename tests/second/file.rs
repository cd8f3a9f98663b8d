// The judging of a table file and the field reader, as the paper words them.
// Rests on nothing but the standard library.

const HEAD: usize = 3;
const MOST_STATES: usize = 1_024;
const MOST_SIGNS: usize = 64;
const MOST_NEXT_STATES: usize = 32_000;

#[derive(Clone, Copy, Debug, PartialEq, Eq)]
pub struct Refusal {
    pub number: usize,
    pub place: usize,
}

/// Where bytes stand in the file, and how many.
#[derive(Clone, Copy, Debug, PartialEq, Eq)]
pub struct Part {
    pub place: usize,
    pub length: usize,
}

impl Part {
    fn end(self) -> usize {
        self.place + self.length
    }

    pub fn of(self, file: &[u8]) -> &[u8] {
        &file[self.place..self.end()]
    }
}

/// An accepted file: its three numbers and the bodies of its three fields.
#[derive(Clone, Copy, Debug, PartialEq, Eq)]
pub struct Table {
    pub states: usize,
    pub signs: usize,
    pub start: usize,
    pub bodies: [Part; 3],
}

pub fn judge(file: &[u8]) -> Result<Table, Refusal> {
    let sizes = read_field(file, 0, 1, 6)?;
    let [states, signs, start] = judge_sizes(sizes.of(file))?;
    let marks = read_field(file, sizes.end(), 2, states)?;
    judge_marks(file, marks)?;
    let next_states = read_field(file, marks.end(), 3, 2 * states * signs)?;
    judge_next_states(file, next_states, states)?;
    if next_states.end() < file.len() {
        return refuse(3, next_states.end());
    }
    Ok(Table {
        states,
        signs,
        start,
        bodies: [sizes, marks, next_states],
    })
}

/// The body of field 1, 2 or 3; the empty part at the file's start for any other number
/// and for a refused file.
pub fn field(file: &[u8], number: usize) -> Part {
    match (judge(file), number) {
        (Ok(table), 1..=3) => table.bodies[number - 1],
        _ => Part {
            place: 0,
            length: 0,
        },
    }
}

pub fn refuse<T>(number: usize, place: usize) -> Result<T, Refusal> {
    Err(Refusal { number, place })
}

pub fn number(bytes: [u8; 2]) -> usize {
    usize::from(u16::from_be_bytes(bytes))
}

/// Head, tag, length and body of the field at a place, in this order.
fn read_field(file: &[u8], place: usize, tag: u8, required: usize) -> Result<Part, Refusal> {
    let left = &file[place..];
    if left.len() < HEAD {
        return refuse(1, file.len());
    }
    if left[0] != tag {
        return refuse(2, place);
    }
    if number([left[1], left[2]]) != required {
        return refuse(4, place + 1);
    }
    if left.len() - HEAD < required {
        return refuse(1, file.len());
    }
    Ok(Part {
        place: place + HEAD,
        length: required,
    })
}

fn judge_sizes(body: &[u8]) -> Result<[usize; 3], Refusal> {
    let states = number([body[0], body[1]]);
    let signs = number([body[2], body[3]]);
    let start = number([body[4], body[5]]);
    let in_range = (1..=MOST_STATES).contains(&states)
        && (1..=MOST_SIGNS).contains(&signs)
        && states * signs <= MOST_NEXT_STATES;
    if !in_range {
        return refuse(5, 3);
    }
    if start >= states {
        return refuse(6, 7);
    }
    Ok([states, signs, start])
}

fn judge_marks(file: &[u8], marks: Part) -> Result<(), Refusal> {
    match marks.of(file).iter().position(|&mark| mark > 1) {
        Some(state) => refuse(7, marks.place + state),
        None => Ok(()),
    }
}

fn judge_next_states(file: &[u8], next_states: Part, states: usize) -> Result<(), Refusal> {
    let (entries, _) = next_states.of(file).as_chunks::<2>();
    match entries.iter().position(|&entry| number(entry) >= states) {
        Some(index) => refuse(8, next_states.place + 2 * index),
        None => Ok(()),
    }
}
