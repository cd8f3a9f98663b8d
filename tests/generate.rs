// Tables and their files: the paper's samples, generated tables of several shapes and sizes, and
// seeded random numbers (splitmix64). Rests on the standard library alone.

pub struct Random(u64);

impl Random {
    pub fn new(seed: u64) -> Random {
        Random(seed)
    }

    pub fn next(&mut self) -> u64 {
        self.0 = self.0.wrapping_add(0x9E37_79B9_7F4A_7C15);
        let mixed = (self.0 ^ (self.0 >> 30)).wrapping_mul(0xBF58_476D_1CE4_E5B9);
        let mixed = (mixed ^ (mixed >> 27)).wrapping_mul(0x94D0_49BB_1331_11EB);
        mixed ^ (mixed >> 31)
    }

    pub fn below(&mut self, bound: usize) -> usize {
        (self.next() % bound as u64) as usize
    }

    pub fn between(&mut self, least: usize, most: usize) -> usize {
        least + self.below(most - least + 1)
    }

    pub fn one_of<T: Copy>(&mut self, list: &[T]) -> T {
        list[self.below(list.len())]
    }

    pub fn bytes(&mut self, length: usize) -> Vec<u8> {
        (0..length).map(|_| self.next() as u8).collect()
    }
}

/// A table whose number of states is that of its marks.
#[derive(Clone, Debug)]
pub struct Table {
    pub signs: usize,
    pub start: usize,
    pub marks: Vec<u8>,
    pub next_states: Vec<u16>,
}

impl Table {
    pub fn states(&self) -> usize {
        self.marks.len()
    }
}

/// A field of a file, with a length that need not be its body's.
#[derive(Clone, Debug)]
pub struct Field {
    pub tag: u8,
    pub length: u16,
    pub body: Vec<u8>,
}

impl Field {
    /// Of a body's length beyond 65,535 the two low bytes are kept.
    fn new(tag: u8, body: Vec<u8>) -> Field {
        Field {
            tag,
            length: body.len() as u16,
            body,
        }
    }
}

fn numbers(list: impl IntoIterator<Item = u16>) -> Vec<u8> {
    list.into_iter().flat_map(u16::to_be_bytes).collect()
}

pub fn sizes_field(states: usize, signs: usize, start: usize) -> Field {
    Field::new(1, numbers([states, signs, start].map(|size| size as u16)))
}

pub fn fields(table: &Table) -> Vec<Field> {
    vec![
        sizes_field(table.states(), table.signs, table.start),
        Field::new(2, table.marks.clone()),
        Field::new(3, numbers(table.next_states.iter().copied())),
    ]
}

pub fn file_of(fields: &[Field]) -> Vec<u8> {
    let mut file = Vec::new();
    for field in fields {
        file.push(field.tag);
        file.extend(field.length.to_be_bytes());
        file.extend(&field.body);
    }
    file
}

pub fn encode(table: &Table) -> Vec<u8> {
    file_of(&fields(table))
}

fn sample(signs: usize, marks: &[u8], next_states: &[u16]) -> Table {
    Table {
        signs,
        start: 0,
        marks: marks.to_vec(),
        next_states: next_states.to_vec(),
    }
}

pub fn t1() -> Table {
    sample(2, &[0, 0, 1, 1, 0], &[1, 0, 2, 0, 3, 2, 2, 3, 3, 0])
}

/// T1's shrunk file.
pub const T1_SHRUNK: [u8; 30] = [
    1, 0, 6, 0, 3, 0, 2, 0, 0, 2, 0, 3, 0, 0, 1, 3, 0, 12, 0, 1, 0, 0, 0, 2, 0, 0, 0, 2, 0, 2,
];

pub fn t2() -> Table {
    sample(
        2,
        &[0, 0, 0, 0, 0, 0, 1, 1, 1],
        &[1, 8, 2, 4, 2, 6, 4, 7, 6, 6, 7, 7, 6, 6, 6, 6, 5, 3],
    )
}

pub fn t3() -> Table {
    sample(
        2,
        &[0, 0, 0, 0, 0, 1],
        &[1, 0, 2, 1, 3, 2, 4, 3, 5, 4, 5, 5],
    )
}

/// All marks, next states and the start 0; the sizes may be outside their ranges.
pub fn blank(states: usize, signs: usize) -> Table {
    Table {
        signs,
        start: 0,
        marks: vec![0; states],
        next_states: vec![0; states * signs],
    }
}

/// The start and the marks random, the next states by the given rule on state and sign.
fn ruled(
    random: &mut Random,
    states: usize,
    signs: usize,
    mut next: impl FnMut(&mut Random, usize, usize) -> usize,
) -> Table {
    let mut table = blank(states, signs);
    table.start = random.below(states);
    table.marks.fill_with(|| random.below(2) as u8);
    for (index, entry) in table.next_states.iter_mut().enumerate() {
        *entry = next(random, index / signs, index % signs) as u16;
    }
    table
}

pub fn scattered(random: &mut Random, states: usize, signs: usize) -> Table {
    ruled(random, states, signs, |random, _, _| random.below(states))
}

/// One sign leads on to the following state, the others stay; only the last state accepts.
pub fn chain(random: &mut Random, states: usize, signs: usize) -> Table {
    let leading = random.below(signs);
    let mut table = ruled(random, states, signs, |_, state, sign| {
        (state + usize::from(sign == leading)).min(states - 1)
    });
    table.start = 0;
    table.marks.fill(0);
    table.marks[states - 1] = 1;
    table
}

/// As a chain, but only sign 0 is bound to lead on; so all states are apart, mostly by short words.
pub fn all_apart(random: &mut Random, states: usize, signs: usize) -> Table {
    let mut table = chain(random, states, signs);
    for (index, entry) in table.next_states.iter_mut().enumerate() {
        *entry = match index % signs {
            0 => (index / signs + 1).min(states - 1),
            _ => random.below(states),
        } as u16;
    }
    table
}

/// From the start at most a quarter of the states can be reached.
pub fn mostly_unreachable(random: &mut Random, states: usize, signs: usize) -> Table {
    let reachable = states.div_ceil(4);
    let mut table = ruled(random, states, signs, |random, state, _| {
        random.below(if state < reachable { reachable } else { states })
    });
    table.start = random.below(reachable);
    table
}

pub fn one_class(random: &mut Random, states: usize, signs: usize) -> Table {
    let mut table = scattered(random, states, signs);
    table.marks.fill(random.below(2) as u8);
    table
}

/// Every state copies, up to the copy its next states are, one of a few first states.
pub fn copies(random: &mut Random, states: usize, signs: usize) -> Table {
    let first = scattered(random, states.div_ceil(3), signs);
    let firsts = first.states();
    let mut table = ruled(random, states, signs, |random, state, sign| {
        let next = usize::from(first.next_states[state % firsts * signs + sign]);
        next + firsts * random.below((states - next).div_ceil(firsts))
    });
    for (state, mark) in table.marks.iter_mut().enumerate() {
        *mark = first.marks[state % firsts];
    }
    table
}

/// 1,024 states of ten bits, of which the top one is the mark; sign 0 rotates them, the others stay.
/// The splitting halves its classes, and looks at many entries before.
pub fn halving(signs: usize) -> Table {
    let mut table = blank(1_024, signs);
    for state in 0..1_024 {
        table.marks[state] = (state >> 9) as u8;
        let row = &mut table.next_states[state * signs..][..signs];
        row.fill(state as u16);
        row[0] = (state << 1 & 1_023 | state >> 9) as u16;
    }
    table
}

/// The same table with its states in another order.
pub fn renamed(random: &mut Random, table: &Table) -> Table {
    let mut names: Vec<usize> = (0..table.states()).collect();
    for last in (1..names.len()).rev() {
        names.swap(last, random.below(last + 1));
    }
    let mut renamed = blank(table.states(), table.signs);
    renamed.start = names[table.start];
    for (state, &name) in names.iter().enumerate() {
        renamed.marks[name] = table.marks[state];
        for sign in 0..table.signs {
            let next = table.next_states[state * table.signs + sign];
            renamed.next_states[name * table.signs + sign] = names[usize::from(next)] as u16;
        }
    }
    renamed
}

const SHAPES: [fn(&mut Random, usize, usize) -> Table; 6] = [
    scattered,
    chain,
    all_apart,
    mostly_unreachable,
    one_class,
    copies,
];

const EDGE_SIZES: [(usize, usize); 8] = [
    (1, 1),
    (1, 64),
    (1_024, 1),
    (1_024, 31),
    (1_000, 32),
    (500, 64),
    (255, 2),
    (256, 1),
];

/// Mostly small sizes; some around 256 states, some anywhere in range, some at the edges.
fn sizes(random: &mut Random) -> (usize, usize) {
    match random.below(64) {
        0 => random.one_of(&EDGE_SIZES),
        1 => {
            let states = random.between(1, 1_024);
            (states, random.between(1, (32_000 / states).min(64)))
        }
        2..=4 => (random.between(250, 262), random.between(1, 3)),
        _ => (random.between(1, 12), random.between(1, 5)),
    }
}

/// Of any shape, its states in another order in half of the cases.
pub fn shaped(random: &mut Random, states: usize, signs: usize) -> Table {
    let table = random.one_of(&SHAPES)(random, states, signs);
    match random.below(2) {
        0 => renamed(random, &table),
        _ => table,
    }
}

pub fn table(random: &mut Random) -> Table {
    let (states, signs) = sizes(random);
    shaped(random, states, signs)
}

/// At most 12 states and 4 signs, but for a few middling tables.
pub fn small_table(random: &mut Random) -> Table {
    let (states, signs) = match random.below(64) {
        0 => (random.between(13, 70), random.between(1, 6)),
        _ => (random.between(1, 12), random.between(1, 4)),
    };
    shaped(random, states, signs)
}

pub fn word(random: &mut Random, signs: usize, length: usize) -> Vec<u8> {
    (0..length).map(|_| random.below(signs) as u8).collect()
}
