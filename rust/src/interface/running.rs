// The calls that run a word or a line.
// Rests on the C interface of include/wylgentip.h.

/// The kind is the mark of the last state.
#[repr(C)]
#[derive(Clone, Copy, Debug, PartialEq, Eq)]
pub struct Ran {
    pub number: usize,
    pub place: usize,
    pub kind: usize,
}

impl Ran {
    pub const fn accepted(kind: usize) -> Ran {
        Ran {
            number: 0,
            place: 0,
            kind,
        }
    }

    pub const fn refused(number: usize, place: usize) -> Ran {
        Ran {
            number,
            place,
            kind: 0,
        }
    }
}

extern "C" {
    fn wyl_run_word(file: *const u8, length: usize, word: *const u8, signs: usize) -> Ran;
    fn wyl_run_line(file: *const u8, length: usize, line: *const u8, bytes: usize) -> Ran;
}

pub fn run_word(file: &[u8], word: &[u8]) -> Ran {
    // Sound: the library reads the lent bytes during the call only, and writes none.
    unsafe { wyl_run_word(file.as_ptr(), file.len(), word.as_ptr(), word.len()) }
}

pub fn run_line(file: &[u8], line: &[u8]) -> Ran {
    // Sound: as for `run_word`.
    unsafe { wyl_run_line(file.as_ptr(), file.len(), line.as_ptr(), line.len()) }
}
