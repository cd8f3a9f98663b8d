// Class and pending lists from elsewhere: well formed ones, and ill formed ones of each way.
// Rests on generate.rs.

use crate::generate::{Random, Table};

#[derive(Clone, Debug, PartialEq, Eq)]
pub struct Lists {
    pub classes: Vec<u16>,
    pub pending: Vec<u16>,
}

/// Well formed; the classes have nothing to do with the marks.
pub fn lists_from_elsewhere(random: &mut Random, states: usize, signs: usize) -> Lists {
    let mut names = Vec::new();
    let members = random.between(2, 6);
    let mut lists = Lists {
        classes: Vec::new(),
        pending: Vec::new(),
    };
    for state in 0..states as u16 {
        let (class, waiting) = if state == 0 || random.below(members) == 0 {
            names.push(state);
            let any = random.below(signs + 1);
            (state, random.one_of(&[0, signs, any]))
        } else {
            (random.one_of(&names), 0)
        };
        lists.classes.push(class);
        lists.pending.push(waiting as u16);
    }
    lists
}

/// Makes well formed lists ill formed, if it can at this state, and gives the place of 13.
pub type Spoil = fn(&mut Random, &Table, &mut Lists, usize) -> Option<usize>;

pub const WAYS_TO_SPOIL: [Spoil; 5] = [
    class_beyond_state,
    class_of_no_class,
    too_much_pending,
    pending_of_no_class,
    class_without_its_name,
];

fn class_beyond_state(
    random: &mut Random,
    _: &Table,
    lists: &mut Lists,
    q: usize,
) -> Option<usize> {
    let states = lists.classes.len();
    lists.classes[q] = random.one_of(&[q + 1, states.max(q + 1), q + 256, 32_768, 65_535]) as u16;
    Some(q)
}

fn class_of_no_class(random: &mut Random, _: &Table, lists: &mut Lists, q: usize) -> Option<usize> {
    let p = random.below(q + 1);
    let is_class = usize::from(lists.classes[p]) == p;
    if p == q || is_class {
        return None;
    }
    lists.classes[q] = p as u16;
    Some(q)
}

fn too_much_pending(
    random: &mut Random,
    table: &Table,
    lists: &mut Lists,
    q: usize,
) -> Option<usize> {
    let most = table.signs;
    lists.pending[q] = random.one_of(&[most + 1, most + 256, 32_768, 65_535]) as u16;
    Some(q)
}

fn pending_of_no_class(
    random: &mut Random,
    table: &Table,
    lists: &mut Lists,
    q: usize,
) -> Option<usize> {
    if usize::from(lists.classes[q]) == q {
        return None;
    }
    lists.pending[q] = random.between(1, table.signs) as u16;
    Some(q)
}

/// The fault shows at the class's next member.
fn class_without_its_name(
    random: &mut Random,
    _: &Table,
    lists: &mut Lists,
    q: usize,
) -> Option<usize> {
    let member = (q + 1..lists.classes.len()).find(|&s| usize::from(lists.classes[s]) == q)?;
    let names: Vec<u16> = (0..q as u16)
        .filter(|&p| lists.classes[usize::from(p)] == p)
        .collect();
    if names.is_empty() {
        return None;
    }
    lists.classes[q] = random.one_of(&names);
    lists.pending[q] = 0;
    Some(member)
}

/// Lists for the table made ill formed in one of the ways, some of which need three states, and the
/// place of 13.
pub fn spoilt_lists(random: &mut Random, table: &Table, ways: &[Spoil]) -> (Lists, usize) {
    loop {
        let mut lists = lists_from_elsewhere(random, table.states(), table.signs);
        let state = random.below(table.states());
        if let Some(place) = random.one_of(ways)(random, table, &mut lists, state) {
            return (lists, place);
        }
    }
}

pub fn any_lists(random: &mut Random, table: &Table) -> Lists {
    match random.below(4) {
        0 => spoilt_lists(random, table, &WAYS_TO_SPOIL).0,
        _ => lists_from_elsewhere(random, table.states(), table.signs),
    }
}
