// Damage to table files, of their fields and of their bytes.
// Rests on the fields and random numbers of generate.rs.

use crate::generate::{file_of, Field, Random};

const OF_FIELDS: [fn(&mut Random, &mut Vec<Field>); 12] = [
    swap_tags,
    change_tag,
    swap_lengths,
    change_length,
    swap_fields,
    leave_out_field,
    double_field,
    resize_body,
    change_size,
    change_start,
    change_mark,
    change_next_state,
];

const OF_BYTES: [fn(&mut Random, &mut Vec<u8>); 5] =
    [cut, change_byte, flip_bit, remove_byte, add_bytes];

const TELLING_SIZES: [usize; 14] = [
    0, 1, 31, 32, 33, 64, 65, 255, 256, 1_024, 1_025, 32_000, 32_768, 65_535,
];

/// The fields' file after the given number of damages; those of bytes come after those of fields.
pub fn damaged(random: &mut Random, mut fields: Vec<Field>, times: usize) -> Vec<u8> {
    let times_of_bytes = random.below(times + 1);
    for _ in times_of_bytes..times {
        random.one_of(&OF_FIELDS)(random, &mut fields);
    }
    let mut file = file_of(&fields);
    for _ in 0..times_of_bytes {
        random.one_of(&OF_BYTES)(random, &mut file);
    }
    file
}

fn any<'a>(random: &mut Random, fields: &'a mut [Field]) -> &'a mut Field {
    let index = random.below(fields.len());
    &mut fields[index]
}

/// Two indices, which differ unless there is one field only.
fn two(random: &mut Random, fields: &[Field]) -> (usize, usize) {
    let count = fields.len();
    let first = random.below(count);
    let apart = random.between(1, count.max(2) - 1);
    (first, (first + apart) % count)
}

fn swap_tags(random: &mut Random, fields: &mut Vec<Field>) {
    let (first, second) = two(random, fields);
    let tag = fields[first].tag;
    fields[first].tag = fields[second].tag;
    fields[second].tag = tag;
}

fn change_tag(random: &mut Random, fields: &mut Vec<Field>) {
    any(random, fields).tag = random.one_of(&[0, 1, 2, 3, 4, 128, 255]);
}

fn swap_lengths(random: &mut Random, fields: &mut Vec<Field>) {
    let (first, second) = two(random, fields);
    let length = fields[first].length;
    fields[first].length = fields[second].length;
    fields[second].length = length;
}

fn change_length(random: &mut Random, fields: &mut Vec<Field>) {
    let field = any(random, fields);
    field.length = match random.below(6) {
        0 => field.length.wrapping_sub(1),
        1 => field.length.wrapping_add(1),
        2 => field.length.wrapping_add(256),
        3 => field.length.swap_bytes(),
        4 => 0,
        _ => random.next() as u16,
    };
}

fn swap_fields(random: &mut Random, fields: &mut Vec<Field>) {
    let (first, second) = two(random, fields);
    fields.swap(first, second);
}

fn leave_out_field(random: &mut Random, fields: &mut Vec<Field>) {
    if fields.len() > 1 {
        fields.remove(random.below(fields.len()));
    }
}

fn double_field(random: &mut Random, fields: &mut Vec<Field>) {
    let double = any(random, fields).clone();
    fields.insert(random.below(fields.len() + 1), double);
}

/// The field's length follows its body in half of the cases.
fn resize_body(random: &mut Random, fields: &mut Vec<Field>) {
    let field = any(random, fields);
    let length = (field.body.len() + random.below(7)).saturating_sub(3);
    field.body.resize(length, 0);
    if random.below(2) == 0 {
        field.length = length as u16;
    }
}

fn put(fields: &mut [Field], index: usize, place: usize, number: usize) {
    let Some(field) = fields.get_mut(index) else {
        return;
    };
    if let Some(bytes) = field.body.get_mut(place..place + 2) {
        bytes.copy_from_slice(&(number as u16).to_be_bytes());
    }
}

fn states(fields: &[Field]) -> usize {
    match fields[0].body[..] {
        [high, low, ..] => usize::from(high) << 8 | usize::from(low),
        _ => 0,
    }
}

/// A number of states or more.
fn too_large(random: &mut Random, fields: &[Field]) -> usize {
    let states = states(fields);
    random.one_of(&[states, states + 1, states | 0x400, states + 256, 65_535])
}

fn change_size(random: &mut Random, fields: &mut Vec<Field>) {
    let place = random.one_of(&[0, 2]);
    put(fields, 0, place, random.one_of(&TELLING_SIZES));
}

fn change_start(random: &mut Random, fields: &mut Vec<Field>) {
    let start = too_large(random, fields);
    put(fields, 0, 4, start);
}

fn change_mark(random: &mut Random, fields: &mut Vec<Field>) {
    let Some(marks) = fields.get_mut(1) else {
        return;
    };
    if !marks.body.is_empty() {
        let state = random.below(marks.body.len());
        marks.body[state] = random.between(2, 255) as u8;
    }
}

fn change_next_state(random: &mut Random, fields: &mut Vec<Field>) {
    let next_state = too_large(random, fields);
    let entries = fields.get(2).map_or(0, |field| field.body.len() / 2);
    put(fields, 2, 2 * random.below(entries.max(1)), next_state);
}

fn cut(random: &mut Random, file: &mut Vec<u8>) {
    file.truncate(random.below(file.len() + 1));
}

fn change_byte(random: &mut Random, file: &mut Vec<u8>) {
    if !file.is_empty() {
        let place = random.below(file.len());
        file[place] = random.next() as u8;
    }
}

fn flip_bit(random: &mut Random, file: &mut Vec<u8>) {
    if !file.is_empty() {
        let place = random.below(file.len());
        file[place] ^= 1 << random.below(8);
    }
}

fn remove_byte(random: &mut Random, file: &mut Vec<u8>) {
    if !file.is_empty() {
        file.remove(random.below(file.len()));
    }
}

fn add_bytes(random: &mut Random, file: &mut Vec<u8>) {
    let added = random.between(1, 20);
    file.extend(random.bytes(added));
}
