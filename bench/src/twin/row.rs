//! The first telling row of two words of ranks, letter by letter.

use super::stairs::{Pair, Reading, Stairs, say};
use crate::letter::Side;

/// The smallest letter that says less than the degree.
fn first_letter(
    pair: Pair,
    stairs: &Stairs,
    left: &Reading,
    right: &Reading,
    degree: u32,
) -> usize {
    let mut letter = 0;
    while say(pair, stairs, left, right, letter) >= degree {
        letter += 1;
    }
    letter
}

pub fn write_row(
    pair: Pair,
    stairs: &Stairs,
    left: &mut Reading,
    right: &mut Reading,
    row: &mut [u32],
    degree: u32,
) -> Side {
    let last = degree as usize - 1;
    for (at, out) in row[..last].iter_mut().enumerate() {
        let letter = first_letter(pair, stairs, left, right, degree - at as u32);
        *out = letter as u32;
        left.go_behind(pair.left, letter);
        right.go_behind(pair.right, letter);
    }
    let letter = first_letter(pair, stairs, left, right, 1);
    row[last] = letter as u32;
    if left.heads[letter] > 0 {
        Side::Left
    } else {
        Side::Right
    }
}
