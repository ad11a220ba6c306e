//! Straight from the definitions, for tiny words: all subsequences, all words.

use crate::letter::{Letter, Row, Side};
use std::collections::BTreeSet;

/// All subsequences of at most `most` letters, in the order of their length and then of their letters.
pub fn subsequences(word: &[Letter], most: usize) -> BTreeSet<(usize, Vec<Letter>)> {
    let mut all = BTreeSet::from([(0, Vec::new())]);
    for &letter in word {
        let longer: Vec<_> = all
            .iter()
            .filter(|(length, _)| *length < most)
            .map(|(length, row)| (length + 1, [row.as_slice(), &[letter]].concat()))
            .collect();
        all.extend(longer);
    }
    all
}

/// The first word that just one of the two has as a subsequence.
pub fn separate(left: &[Letter], right: &[Letter]) -> Row {
    let in_left = subsequences(left, left.len());
    let in_right = subsequences(right, right.len());
    let first = in_left.symmetric_difference(&in_right).next()?;
    let side = if in_left.contains(first) {
        Side::Left
    } else {
        Side::Right
    };
    Some((side, first.1.clone()))
}

/// The first word, of all words over the word's letters, that has the same subsequences of at most `k` letters.
pub fn form(word: &[Letter], k: usize) -> Vec<Letter> {
    let wanted = subsequences(word, k);
    let letters: BTreeSet<Letter> = word.iter().copied().collect();
    let mut tried = vec![Vec::new()];
    loop {
        if let Some(found) = tried.iter().find(|other| subsequences(other, k) == wanted) {
            return found.clone();
        }
        tried = tried
            .iter()
            .flat_map(|other| {
                letters
                    .iter()
                    .map(|&letter| [other.as_slice(), &[letter]].concat())
            })
            .collect();
    }
}
