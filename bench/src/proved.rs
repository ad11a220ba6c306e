//! The proved cores, out of the static library of the crate `bindings`.

use crate::letter::{Letter, Side};

#[repr(C)]
struct Reply {
    number: u32,
    size: usize,
}

unsafe extern "C" {
    // A slice crosses as a pointer and a length.
    fn zuligmaw_separate(
        left: *const Letter,
        left_length: usize,
        right: *const Letter,
        right_length: usize,
        row: *mut Letter,
        row_length: usize,
        scratch: *mut u32,
        scratch_length: usize,
    ) -> Reply;

    fn zuligmaw_form(
        word: *const Letter,
        word_length: usize,
        k: u16,
        out: *mut Letter,
        out_length: usize,
        scratch: *mut u32,
        scratch_length: usize,
    ) -> Reply;
}

/// A refusal, by its number and place.
pub type Fault = (u32, usize);

/// Writes the first telling row at the start of `row`; gives its length and its side.
pub fn separate(
    left: &[Letter],
    right: &[Letter],
    row: &mut [Letter],
    scratch: &mut [u32],
) -> Result<Option<(usize, Side)>, Fault> {
    // SAFETY: each pointer has its own slice's length behind it, and the two that are written are borrowed alone.
    let Reply { number, size } = unsafe {
        zuligmaw_separate(
            left.as_ptr(),
            left.len(),
            right.as_ptr(),
            right.len(),
            row.as_mut_ptr(),
            row.len(),
            scratch.as_mut_ptr(),
            scratch.len(),
        )
    };
    match number {
        0 => Ok(None),
        1 => Ok(Some((size, Side::Left))),
        2 => Ok(Some((size, Side::Right))),
        _ => Err((number, size)),
    }
}

/// Writes the form of `word` at `k` at the start of `out`; gives its length.
pub fn form(
    word: &[Letter],
    k: u16,
    out: &mut [Letter],
    scratch: &mut [u32],
) -> Result<usize, Fault> {
    // SAFETY: as above.
    let Reply { number, size } = unsafe {
        zuligmaw_form(
            word.as_ptr(),
            word.len(),
            k,
            out.as_mut_ptr(),
            out.len(),
            scratch.as_mut_ptr(),
            scratch.len(),
        )
    };
    match number {
        0 => Ok(size),
        _ => Err((number, size)),
    }
}
