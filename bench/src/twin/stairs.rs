//! The staircase: for each place of the left word what stands for it in the right word, and up to which level.

use super::stretches::between;

/// Two words of ranks, with the table of the right one.
#[derive(Clone, Copy)]
pub struct Pair<'a> {
    pub left: &'a [u32],
    pub right: &'a [u32],
    pub table: &'a [u32],
}

pub struct Stairs<'a> {
    pub levels: &'a mut [u32],
    pub stands: &'a mut [u32],
}

/// The end part of a word that was reached.
pub struct Reading<'a> {
    pub at: usize,
    /// For each letter the place behind its first occurrence, or 0.
    pub heads: &'a mut [u32],
    /// For each place what was known of its letter before.
    pub links: &'a mut [u32],
}

impl<'a> Reading<'a> {
    pub fn start(word: &[u32], heads: &'a mut [u32], links: &'a mut [u32]) -> Reading<'a> {
        heads.fill(0);
        Reading {
            at: word.len(),
            heads,
            links,
        }
    }

    /// Goes one place to the left, and gives its letter.
    fn put_front(&mut self, word: &[u32]) -> usize {
        self.at -= 1;
        let letter = word[self.at] as usize;
        self.links[self.at] = self.heads[letter];
        self.heads[letter] = self.at as u32 + 1;
        letter
    }

    /// Goes on behind the first occurrence of a letter.
    pub fn go_behind(&mut self, word: &[u32], letter: usize) {
        let to = self.heads[letter] as usize;
        for at in self.at..to {
            self.heads[word[at] as usize] = self.links[at];
        }
        self.at = to;
    }
}

/// What a letter says of the end parts that were reached.
pub fn say(pair: Pair, stairs: &Stairs, left: &Reading, right: &Reading, letter: usize) -> u32 {
    match (left.heads[letter] as usize, right.heads[letter] as usize) {
        (0, 0) => pair.right.len() as u32 + 2,
        (0, _) | (_, 0) => 0,
        (place, there) => {
            let stand = stairs.stands[place] as usize;
            stairs.levels[place].min(between(pair.right.len(), pair.table, stand, there))
        }
    }
}

fn walk_right(
    pair: Pair,
    stairs: &Stairs,
    left: &Reading,
    right: &mut Reading,
    says: &mut [u32],
    to: usize,
) {
    while right.at > to {
        let letter = right.put_front(pair.right);
        says[letter] = say(pair, stairs, left, right, letter);
    }
}

/// One more than the least, or the cap.
pub fn degree(says: &[u32], most: u32) -> u32 {
    let least = says.iter().fold(most, |least, &said| least.min(said));
    (least + 1).min(most)
}

fn stand_for(
    pair: Pair,
    depth: u32,
    partner: u32,
    stairs: &Stairs,
    left: &Reading,
    right: &mut Reading,
    says: &mut [u32],
) -> (u32, u32) {
    if partner > 0 {
        walk_right(pair, stairs, left, right, says, partner as usize - 1);
        let level = degree(says, pair.right.len() as u32 + 2);
        if level > depth {
            return (level, partner - 1);
        }
    }
    let next = left.at + 1;
    (depth.min(stairs.levels[next]), stairs.stands[next])
}

/// Finds what stands for each place of the left word, from right to left.
pub fn climb(
    pair: Pair,
    depths: &[u32],
    partners: &[u32],
    stairs: &mut Stairs,
    left: &mut Reading,
    right: &mut Reading,
    says: &mut [u32],
) {
    let end = pair.left.len();
    stairs.levels[end] = pair.right.len() as u32 + 2;
    stairs.stands[end] = pair.right.len() as u32;
    for i in (0..end).rev() {
        let letter = left.put_front(pair.left);
        says[letter] = say(pair, stairs, left, right, letter);
        let (level, stand) = stand_for(pair, depths[i], partners[i], stairs, left, right, says);
        stairs.levels[i] = level;
        stairs.stands[i] = stand;
    }
    walk_right(pair, stairs, left, right, says, 0);
}
