//! The words that are tried and measured: made from a seed, so that every run has the same.

use crate::letter::Letter;

/// A small generator of numbers (xorshift).
pub struct Dice(u64);

impl Dice {
    pub fn new(seed: u64) -> Dice {
        Dice(seed.wrapping_mul(0x9e37_79b9_7f4a_7c15) | 1)
    }

    /// A number below `sides`.
    pub fn roll(&mut self, sides: usize) -> usize {
        self.0 ^= self.0 << 13;
        self.0 ^= self.0 >> 7;
        self.0 ^= self.0 << 17;
        ((self.0 >> 33) as usize) % sides
    }

    pub fn letter(&mut self, letters: usize) -> Letter {
        letter(self.roll(letters))
    }

    pub fn word(&mut self, length: usize, letters: usize) -> Vec<Letter> {
        (0..length).map(|_| self.letter(letters)).collect()
    }

    pub fn shuffle(&mut self, word: &mut [Letter]) {
        for i in (1..word.len()).rev() {
            word.swap(i, self.roll(i + 1));
        }
    }

    /// Another letter than the one at this place.
    pub fn change(&mut self, word: &mut [Letter], at: usize, letters: usize) {
        let old = word[at].number as usize - 1;
        word[at] = letter((old + 1 + self.roll(letters - 1)) % letters);
    }

    /// Some places changed, left out or put in.
    pub fn edit(&mut self, word: &mut Vec<Letter>, letters: usize) {
        let at = self.roll(word.len() + 1);
        match self.roll(3) {
            0 => word.insert(at, self.letter(letters)),
            1 if at < word.len() => drop(word.remove(at)),
            _ if at < word.len() && letters > 1 => self.change(word, at, letters),
            _ => {}
        }
    }
}

/// Letters are numbered from 1.
pub fn letter(index: usize) -> Letter {
    Letter {
        number: index as u32 + 1,
    }
}

pub type Words = (Vec<Letter>, Vec<Letter>);

pub fn unrelated(dice: &mut Dice, length: usize, letters: usize) -> Words {
    (dice.word(length, letters), dice.word(length, letters))
}

/// The letter in the middle is another.
pub fn one_edit(dice: &mut Dice, length: usize, letters: usize) -> Words {
    let left = dice.word(length, letters);
    let mut right = left.clone();
    dice.change(&mut right, length / 2, letters);
    (left, right)
}

/// One letter is left out, one is another, and one is put in.
pub fn three_edits(dice: &mut Dice, length: usize, letters: usize) -> Words {
    let left = dice.word(length, letters);
    let mut right = left.clone();
    right.insert(3 * length / 4, dice.letter(letters));
    dice.change(&mut right, length / 2, letters);
    right.remove(length / 4);
    (left, right)
}

/// One letter `h` times against `h + 1` times, with 63 other letters around it, half of them on each side. It is the
/// letter of this rank among the 64.
pub fn one_more(dice: &mut Dice, length: usize, rank: usize) -> Words {
    let mut others: Vec<_> = (0..64).filter(|&other| other != rank).map(letter).collect();
    dice.shuffle(&mut others);
    let word = |h: usize| [&others[..31], &vec![letter(rank); h], &others[31..]].concat();
    (word(length - 64), word(length - 63))
}

/// Two letters in turn, against the same with the one in the middle changed.
pub fn in_turn(length: usize) -> Words {
    let left: Vec<_> = (0..length).map(|i| letter(i % 2)).collect();
    let mut right = left.clone();
    right[length / 2] = letter((length / 2 + 1) % 2);
    (left, right)
}
