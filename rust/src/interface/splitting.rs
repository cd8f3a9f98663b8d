// The calls of the splitting: the fresh lists, and a run of takes.
// Rests on the C interface of include/wylgentip.h.

#[repr(C)]
#[derive(Clone, Copy, Debug, PartialEq, Eq)]
pub struct Started {
    pub number: usize,
    pub place: usize,
}

/// Takes made and entries looked at.
#[repr(C)]
#[derive(Clone, Copy, Debug, PartialEq, Eq)]
pub struct SplitRun {
    pub number: usize,
    pub place: usize,
    pub takes: usize,
    pub entries: usize,
}

impl SplitRun {
    pub const fn accepted(takes: usize, entries: usize) -> SplitRun {
        SplitRun {
            number: 0,
            place: 0,
            takes,
            entries,
        }
    }

    pub const fn refused(number: usize, place: usize) -> SplitRun {
        SplitRun {
            number,
            place,
            takes: 0,
            entries: 0,
        }
    }
}

extern "C" {
    fn wyl_fresh(
        file: *const u8,
        length: usize,
        classes: *mut u16,
        classes_length: usize,
        pending: *mut u16,
        pending_length: usize,
    ) -> Started;
    fn wyl_run(
        file: *const u8,
        length: usize,
        budget: usize,
        classes: *mut u16,
        classes_length: usize,
        pending: *mut u16,
        pending_length: usize,
        work: *mut u16,
        work_length: usize,
    ) -> SplitRun;
}

pub fn fresh(file: &[u8], classes: &mut [u16], pending: &mut [u16]) -> Started {
    // Sound: the library reads the file, and reads and writes the two slices, during the call only.
    unsafe {
        wyl_fresh(
            file.as_ptr(),
            file.len(),
            classes.as_mut_ptr(),
            classes.len(),
            pending.as_mut_ptr(),
            pending.len(),
        )
    }
}

pub fn run(
    file: &[u8],
    budget: usize,
    classes: &mut [u16],
    pending: &mut [u16],
    work: &mut [u16],
) -> SplitRun {
    // Sound: as for `fresh`, with three slices.
    unsafe {
        wyl_run(
            file.as_ptr(),
            file.len(),
            budget,
            classes.as_mut_ptr(),
            classes.len(),
            pending.as_mut_ptr(),
            pending.len(),
            work.as_mut_ptr(),
            work.len(),
        )
    }
}
