//! The first row that tells two words apart.

use super::pairing::{find_partners, find_siblings};
use super::ranks::{Lookup, letter_at, number};
use super::row::write_row;
use super::stairs::{Pair, Reading, Stairs, climb, degree};
use super::stretches::{LEVELS, fill_table};
use super::vector::write_rights;
use crate::letter::{Letter, Side};

fn pair_words(
    left: &[u32],
    right: &[u32],
    vector: &mut [u32],
    depths: &mut [u32],
    table: &mut [u32],
    partners: &mut [u32],
    scratch: &mut [u32],
) {
    let width = right.len();
    write_rights(left, vector, depths);
    write_rights(right, vector, &mut table[..width]);
    fill_table(width, table);
    let right_depths = &table[..width];
    let (stack, siblings) = scratch.split_at_mut(left.len() + 1);
    find_siblings(right_depths, stack, siblings);
    find_partners(depths, right_depths, siblings, stack, partners);
}

fn tell(
    left: &[u32],
    right: &[u32],
    letters: usize,
    row: &mut [u32],
    scratch: &mut [u32],
) -> Option<(usize, Side)> {
    let (depths, rest) = scratch.split_at_mut(left.len());
    let (table, rest) = rest.split_at_mut(LEVELS * right.len());
    let (partners, rest) = rest.split_at_mut(left.len() + 1);
    let (says, rest) = rest.split_at_mut(letters);
    pair_words(left, right, says, depths, table, partners, rest);
    let (levels, rest) = rest.split_at_mut(left.len() + 1);
    let (stands, rest) = rest.split_at_mut(left.len() + 1);
    let (left_heads, rest) = rest.split_at_mut(letters);
    let (right_heads, rest) = rest.split_at_mut(letters);
    let (left_links, right_links) = rest.split_at_mut(left.len());
    let pair = Pair { left, right, table };
    let mut stairs = Stairs { levels, stands };
    let mut left_end = Reading::start(left, left_heads, left_links);
    let mut right_end = Reading::start(right, right_heads, right_links);
    let cap = right.len() as u32 + 2;
    says.fill(cap);
    climb(
        pair,
        depths,
        partners,
        &mut stairs,
        &mut left_end,
        &mut right_end,
        says,
    );
    let degree = degree(says, cap);
    if degree == cap {
        return None;
    }
    let side = write_row(pair, &stairs, &mut left_end, &mut right_end, row, degree);
    Some((degree as usize, side))
}

fn separate_shorter<K: Lookup>(
    left: &[Letter],
    right: &[Letter],
    row: &mut [Letter],
    scratch: &mut [u32],
) -> Option<(usize, Side)> {
    let (listed, rest) = scratch.split_at_mut(left.len() + right.len());
    let (left_ranks, rest) = rest.split_at_mut(left.len());
    let (right_ranks, rest) = rest.split_at_mut(right.len());
    let (ranks, rest) = rest.split_at_mut(right.len() + 1);
    let letters = number::<K>(left, right, listed, left_ranks, right_ranks);
    let (length, side) = tell(left_ranks, right_ranks, letters, ranks, rest)?;
    for (out, &rank) in row.iter_mut().zip(&ranks[..length]) {
        *out = letter_at(left, right, listed[rank as usize] as usize);
    }
    Some((length, side))
}

/// Writes the first telling row at the start of `row`; gives its length and its side.
pub fn separate<K: Lookup>(
    left: &[Letter],
    right: &[Letter],
    row: &mut [Letter],
    scratch: &mut [u32],
) -> Option<(usize, Side)> {
    if right.len() <= left.len() {
        return separate_shorter::<K>(left, right, row, scratch);
    }
    let (length, side) = separate_shorter::<K>(right, left, row, scratch)?;
    let side = match side {
        Side::Left => Side::Right,
        Side::Right => Side::Left,
    };
    Some((length, side))
}
