// The call that finds the classes by layers.
// Rests on the C interface of include/wylgentip.h.

/// The number of classes and the rounds.
#[repr(C)]
#[derive(Clone, Copy, Debug, PartialEq, Eq)]
pub struct Layered {
    pub number: usize,
    pub place: usize,
    pub classes: usize,
    pub rounds: usize,
}

impl Layered {
    pub const fn accepted(classes: usize, rounds: usize) -> Layered {
        Layered {
            number: 0,
            place: 0,
            classes,
            rounds,
        }
    }

    pub const fn refused(number: usize, place: usize) -> Layered {
        Layered {
            number,
            place,
            classes: 0,
            rounds: 0,
        }
    }
}

extern "C" {
    fn wyl_layers(
        file: *const u8,
        length: usize,
        work: *mut u16,
        work_length: usize,
        classes: *mut u16,
        classes_length: usize,
    ) -> Layered;
}

pub fn layers(file: &[u8], work: &mut [u16], classes: &mut [u16]) -> Layered {
    // Sound: the library reads the file, and reads and writes the two slices, during the call only.
    unsafe {
        wyl_layers(
            file.as_ptr(),
            file.len(),
            work.as_mut_ptr(),
            work.len(),
            classes.as_mut_ptr(),
            classes.len(),
        )
    }
}
