// The call that shrinks a file.
// Rests on the C interface of include/wylgentip.h.

/// The rows of the shrunk file, and its length.
#[repr(C)]
#[derive(Clone, Copy, Debug, PartialEq, Eq)]
pub struct Shrunk {
    pub number: usize,
    pub place: usize,
    pub rows: usize,
    pub length: usize,
}

impl Shrunk {
    pub const fn accepted(rows: usize, length: usize) -> Shrunk {
        Shrunk {
            number: 0,
            place: 0,
            rows,
            length,
        }
    }

    pub const fn refused(number: usize, place: usize) -> Shrunk {
        Shrunk {
            number,
            place,
            rows: 0,
            length: 0,
        }
    }
}

extern "C" {
    fn wyl_shrink(
        file: *const u8,
        length: usize,
        work: *mut u16,
        work_length: usize,
        out: *mut u8,
        out_length: usize,
    ) -> Shrunk;
}

pub fn shrink(file: &[u8], work: &mut [u16], out: &mut [u8]) -> Shrunk {
    // Sound: the library reads the file, and reads and writes the two slices, during the call only.
    unsafe {
        wyl_shrink(
            file.as_ptr(),
            file.len(),
            work.as_mut_ptr(),
            work.len(),
            out.as_mut_ptr(),
            out.len(),
        )
    }
}
