// The call that finds the word that tells two states apart.
// Rests on the C interface of include/wylgentip.h.

/// Apart is 1 where a word of this length stands at the front of the lent bytes, 0 where alike.
#[repr(C)]
#[derive(Clone, Copy, Debug, PartialEq, Eq)]
pub struct Told {
    pub number: usize,
    pub place: usize,
    pub apart: usize,
    pub length: usize,
}

impl Told {
    pub const ALIKE: Told = Told {
        number: 0,
        place: 0,
        apart: 0,
        length: 0,
    };

    pub const fn apart(length: usize) -> Told {
        Told {
            apart: 1,
            length,
            ..Told::ALIKE
        }
    }

    pub const fn refused(number: usize, place: usize) -> Told {
        Told {
            number,
            place,
            ..Told::ALIKE
        }
    }
}

extern "C" {
    fn wyl_tell(
        file: *const u8,
        length: usize,
        first: usize,
        second: usize,
        work: *mut u16,
        work_length: usize,
        word: *mut u8,
        word_length: usize,
    ) -> Told;
}

pub fn tell(file: &[u8], first: usize, second: usize, work: &mut [u16], word: &mut [u8]) -> Told {
    // Sound: the library reads the file, and reads and writes the two slices, during the call only.
    unsafe {
        wyl_tell(
            file.as_ptr(),
            file.len(),
            first,
            second,
            work.as_mut_ptr(),
            work.len(),
            word.as_mut_ptr(),
            word.len(),
        )
    }
}
