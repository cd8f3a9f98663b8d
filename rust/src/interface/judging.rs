// The calls that judge a file and find its fields.
// Rests on the C interface of include/wylgentip.h.

#[repr(C)]
#[derive(Clone, Copy, Debug, PartialEq, Eq)]
pub struct Judged {
    pub number: usize,
    pub place: usize,
    pub states: usize,
    pub signs: usize,
    pub start: usize,
}

impl Judged {
    pub const fn accepted(states: usize, signs: usize, start: usize) -> Judged {
        Judged {
            number: 0,
            place: 0,
            states,
            signs,
            start,
        }
    }

    pub const fn refused(number: usize, place: usize) -> Judged {
        Judged {
            number,
            place,
            states: 0,
            signs: 0,
            start: 0,
        }
    }
}

#[repr(C)]
#[derive(Clone, Copy, Debug, PartialEq, Eq)]
pub struct Part {
    pub place: usize,
    pub length: usize,
}

extern "C" {
    fn wyl_judge(file: *const u8, length: usize) -> Judged;
    fn wyl_field(file: *const u8, length: usize, number: usize) -> Part;
}

pub fn judge(file: &[u8]) -> Judged {
    // Sound: the library reads the lent bytes during the call only, and writes none.
    unsafe { wyl_judge(file.as_ptr(), file.len()) }
}

pub fn field(file: &[u8], number: usize) -> Part {
    // Sound: as for `judge`.
    unsafe { wyl_field(file.as_ptr(), file.len(), number) }
}
