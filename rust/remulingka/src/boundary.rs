//! The C boundary: the only module with `unsafe`.
//!
//! Each function here is safe and takes slices, so that the areas a call is lent
//! are exactly those that Rust knows to be there. The answers are still the
//! boundary's own numbers; [`Answer`] takes them apart.
//!
//! Why the calls are sound, once for all four:
//!
//! * A slice is passed as its pointer and its length, both from one and the same
//!   Rust slice. The pointer is therefore aligned, not null, and good for reading
//!   (and for `&mut`, writing) that many elements for the whole call.
//! * A slice of length zero has a pointer that is aligned and not null but leads
//!   nowhere. The archive reads and writes only below the length it is given (its
//!   functions take slices themselves and are proved free of other accesses), so
//!   it never follows such a pointer.
//! * No two areas overlap where one is written: the borrow checker admits no two
//!   slices of which one is `&mut` over the same memory.
//! * The archive keeps no pointer after the call, holds no state between calls and
//!   starts no thread. Calls on different areas may run at the same time.
//! * Every bit pattern is a legal `i32` or `u8`, so whatever is written is a legal
//!   value of its slice. The functions never unwind: they have no panics.

#![allow(unsafe_code)]

extern "C" {
    fn remulingka_pack(
        settings: *const i32,
        settings_length: usize,
        tables: *const i32,
        tables_length: usize,
        samples: *const i32,
        samples_length: usize,
        scratch: *mut i32,
        scratch_length: usize,
        out: *mut u8,
        out_length: usize,
    ) -> u64;
    fn remulingka_length(
        settings: *const i32,
        settings_length: usize,
        tables: *const i32,
        tables_length: usize,
        samples: *const i32,
        samples_length: usize,
        scratch: *mut i32,
        scratch_length: usize,
    ) -> u64;
    fn remulingka_open(
        file: *const u8,
        file_length: usize,
        scratch: *mut i32,
        scratch_length: usize,
        tables: *mut i32,
        tables_length: usize,
        image: *mut i32,
        image_length: usize,
        settings: *mut i32,
        settings_length: usize,
    ) -> u64;
    fn remulingka_look(
        file: *const u8,
        file_length: usize,
        settings: *mut i32,
        settings_length: usize,
    ) -> u64;
}

/// What a call answers: number · 2^56 + value.
#[derive(Clone, Copy, Debug, PartialEq, Eq)]
pub struct Answer(pub u64);

impl Answer {
    /// 0 for success, else the refusal's number.
    pub fn number(self) -> u8 {
        (self.0 >> 56) as u8
    }

    /// What is returned beside the number.
    pub fn value(self) -> u64 {
        self.0 & ((1 << 56) - 1)
    }
}

/// Packs `samples` into `out`.
pub fn pack(
    settings: &[i32],
    tables: &[i32],
    samples: &[i32],
    scratch: &mut [i32],
    out: &mut [u8],
) -> Answer {
    // SAFETY: five pointer and length pairs, each of one slice that outlives the
    // call; `scratch` and `out` are borrowed mutably and so overlap nothing.
    Answer(unsafe {
        remulingka_pack(
            settings.as_ptr(),
            settings.len(),
            tables.as_ptr(),
            tables.len(),
            samples.as_ptr(),
            samples.len(),
            scratch.as_mut_ptr(),
            scratch.len(),
            out.as_mut_ptr(),
            out.len(),
        )
    })
}

/// Counts the bytes that `pack` would write.
pub fn length(settings: &[i32], tables: &[i32], samples: &[i32], scratch: &mut [i32]) -> Answer {
    // SAFETY: four pointer and length pairs, each of one slice that outlives the
    // call; `scratch` is borrowed mutably and so overlaps nothing.
    Answer(unsafe {
        remulingka_length(
            settings.as_ptr(),
            settings.len(),
            tables.as_ptr(),
            tables.len(),
            samples.as_ptr(),
            samples.len(),
            scratch.as_mut_ptr(),
            scratch.len(),
        )
    })
}

/// Opens `file` into `tables`, `image` and `settings`.
pub fn open(
    file: &[u8],
    scratch: &mut [i32],
    tables: &mut [i32],
    image: &mut [i32],
    settings: &mut [i32],
) -> Answer {
    // SAFETY: five pointer and length pairs, each of one slice that outlives the
    // call; all but `file` are borrowed mutably and so overlap nothing.
    Answer(unsafe {
        remulingka_open(
            file.as_ptr(),
            file.len(),
            scratch.as_mut_ptr(),
            scratch.len(),
            tables.as_mut_ptr(),
            tables.len(),
            image.as_mut_ptr(),
            image.len(),
            settings.as_mut_ptr(),
            settings.len(),
        )
    })
}

/// Reads the header of `file` into `settings`.
pub fn look(file: &[u8], settings: &mut [i32]) -> Answer {
    // SAFETY: two pointer and length pairs, each of one slice that outlives the
    // call; `settings` is borrowed mutably and so does not overlap `file`.
    Answer(unsafe {
        remulingka_look(
            file.as_ptr(),
            file.len(),
            settings.as_mut_ptr(),
            settings.len(),
        )
    })
}
