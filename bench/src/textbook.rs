//! The textbook search for the first telling row: breadth first over pairs of places, with tables of the next occurrence
//! of each letter and a mark for each pair. Letters are tried in order, so the first row found is the earliest of the
//! shortest. It comes in two forms: plain, with a byte for each pair and new memory for each call; and tuned, with a bit
//! for each pair and memory that is kept from call to call.

use crate::letter::{Letter, Side};

/// No later occurrence.
const NONE: u16 = u16::MAX;

/// A pair of places that was reached: how, and from where in the queue.
#[derive(Clone, Copy)]
struct Reached {
    left: u16,
    right: u16,
    letter: u16,
    from: u32,
}

/// A mark for each of so many pairs.
pub trait Marks: Default {
    fn clear(&mut self, pairs: usize);

    /// Marks the pair; whether it was not marked before.
    fn set(&mut self, pair: usize) -> bool;
}

/// A byte for each pair.
#[derive(Default)]
pub struct Bytes(Vec<bool>);

impl Marks for Bytes {
    fn clear(&mut self, pairs: usize) {
        self.0 = vec![false; pairs];
    }

    fn set(&mut self, pair: usize) -> bool {
        !std::mem::replace(&mut self.0[pair], true)
    }
}

/// A bit for each pair.
#[derive(Default)]
pub struct Bits(Vec<u64>);

impl Marks for Bits {
    #[inline]
    fn clear(&mut self, pairs: usize) {
        self.0.clear();
        self.0.resize(pairs.div_ceil(64), 0);
    }

    #[inline(always)]
    fn set(&mut self, pair: usize) -> bool {
        let word = &mut self.0[pair / 64];
        let bit = 1 << (pair % 64);
        if *word & bit != 0 {
            return false;
        }
        *word |= bit;
        true
    }
}

#[derive(Default)]
pub struct Search<M> {
    letters: Vec<Letter>,
    left: Vec<u16>,
    right: Vec<u16>,
    marks: M,
    queue: Vec<Reached>,
}

/// For each place and letter the place behind the next occurrence.
fn fill_next(table: &mut Vec<u16>, word: &[Letter], letters: &[Letter]) {
    let width = letters.len();
    table.clear();
    table.resize((word.len() + 1) * width, NONE);
    for (i, letter) in word.iter().enumerate().rev() {
        table.copy_within((i + 1) * width..(i + 2) * width, i * width);
        let rank = letters.partition_point(|x| x < letter);
        table[i * width + rank] = i as u16 + 1;
    }
}

impl<M: Marks> Search<M> {
    /// Writes the first telling row at the start of `row`; gives its length and its side.
    pub fn separate(
        &mut self,
        left: &[Letter],
        right: &[Letter],
        row: &mut [Letter],
    ) -> Option<(usize, Side)> {
        if left == right {
            return None;
        }
        self.letters.clear();
        self.letters.extend_from_slice(left);
        self.letters.extend_from_slice(right);
        self.letters.sort_unstable();
        self.letters.dedup();
        fill_next(&mut self.left, left, &self.letters);
        fill_next(&mut self.right, right, &self.letters);
        let columns = right.len() + 1;
        self.marks.clear((left.len() + 1) * columns);
        let (last, letter, side) = self.search(columns);
        Some((self.write_row(last, letter, row), side))
    }

    /// The queue's entry from which a letter leads on in one word only, that letter, and the word.
    fn search(&mut self, columns: usize) -> (u32, u16, Side) {
        let width = self.letters.len();
        self.queue.clear();
        self.queue.push(Reached {
            left: 0,
            right: 0,
            letter: 0,
            from: 0,
        });
        let mut at = 0;
        loop {
            let Reached { left, right, .. } = self.queue[at];
            let in_left = &self.left[left as usize * width..][..width];
            let in_right = &self.right[right as usize * width..][..width];
            for (letter, (&i, &j)) in in_left.iter().zip(in_right).enumerate() {
                if i == NONE && j == NONE {
                    continue;
                }
                if i == NONE {
                    return (at as u32, letter as u16, Side::Right);
                }
                if j == NONE {
                    return (at as u32, letter as u16, Side::Left);
                }
                if self.marks.set(i as usize * columns + j as usize) {
                    self.queue.push(Reached {
                        left: i,
                        right: j,
                        letter: letter as u16,
                        from: at as u32,
                    });
                }
            }
            at += 1;
        }
    }

    fn write_row(&self, last: u32, letter: u16, row: &mut [Letter]) -> usize {
        let mut length = 1;
        let mut at = last;
        while at != 0 {
            length += 1;
            at = self.queue[at as usize].from;
        }
        row[length - 1] = self.letters[letter as usize];
        at = last;
        for place in row[..length - 1].iter_mut().rev() {
            let reached = self.queue[at as usize];
            *place = self.letters[reached.letter as usize];
            at = reached.from;
        }
        length
    }
}
