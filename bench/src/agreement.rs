//! All implementations must agree, before anything is measured.

use crate::inputs::{self, Dice, Words, letter};
use crate::letter::{LONGEST, Letter, Row, SCRATCH};
use crate::textbook::{Bits, Search};
use crate::twin::BranchFree;
use crate::{definition, proved, twin};

/// The memory that the calls are lent.
pub struct Memory {
    pub row: Vec<Letter>,
    pub scratch: Vec<u32>,
    pub search: Search<Bits>,
}

impl Memory {
    pub fn new() -> Memory {
        Memory {
            row: vec![Letter::default(); LONGEST + 1],
            scratch: vec![0; SCRATCH],
            search: Search::default(),
        }
    }

    fn proved_row(&mut self, left: &[Letter], right: &[Letter]) -> Row {
        let told =
            proved::separate(left, right, &mut self.row, &mut self.scratch).expect("enough memory");
        told.map(|(length, side)| (side, self.row[..length].to_vec()))
    }

    fn twin_row(&mut self, left: &[Letter], right: &[Letter]) -> Row {
        let told = twin::separate::<BranchFree>(left, right, &mut self.row, &mut self.scratch);
        told.map(|(length, side)| (side, self.row[..length].to_vec()))
    }

    fn textbook_row(&mut self, left: &[Letter], right: &[Letter]) -> Row {
        let told = self.search.separate(left, right, &mut self.row);
        told.map(|(length, side)| (side, self.row[..length].to_vec()))
    }

    fn proved_form(&mut self, word: &[Letter], k: u16) -> Vec<Letter> {
        let length =
            proved::form(word, k, &mut self.row, &mut self.scratch).expect("enough memory");
        self.row[..length].to_vec()
    }

    fn twin_form(&mut self, word: &[Letter], k: u16) -> Vec<Letter> {
        let length = twin::form::<BranchFree>(word, k, &mut self.row, &mut self.scratch);
        self.row[..length].to_vec()
    }

    pub fn check_pair(&mut self, (left, right): &Words) {
        let row = self.proved_row(left, right);
        assert_eq!(row, self.twin_row(left, right), "{left:?} {right:?}");
        assert_eq!(row, self.textbook_row(left, right), "{left:?} {right:?}");
    }

    /// Beside the twin's, the form must be congruent by the textbook search and its own form.
    pub fn check_form(&mut self, word: &[Letter], k: u16) {
        let form = self.proved_form(word, k);
        assert_eq!(form, self.twin_form(word, k), "{word:?} at {k}");
        assert_eq!(form, self.proved_form(&form, k), "{word:?} at {k}");
        if let Some((_, row)) = self.textbook_row(word, &form) {
            assert!(row.len() > k as usize, "{word:?} at {k}");
        }
    }
}

/// Tiny words, where the definitions can be searched.
fn tiny(memory: &mut Memory, dice: &mut Dice) -> usize {
    const WORDS: usize = 3000;
    for _ in 0..WORDS {
        let letters = 1 + dice.roll(3);
        let (left_length, right_length) = (dice.roll(8), dice.roll(8));
        let words = (
            dice.word(left_length, letters),
            dice.word(right_length, letters),
        );
        memory.check_pair(&words);
        assert_eq!(
            memory.proved_row(&words.0, &words.1),
            definition::separate(&words.0, &words.1)
        );
        let k = dice.roll(5) as u16;
        memory.check_form(&words.0, k);
        assert_eq!(
            memory.proved_form(&words.0, k),
            definition::form(&words.0, k as usize)
        );
    }
    WORDS
}

/// Two words: unrelated, or one made from the other by a few edits.
fn pair(dice: &mut Dice, longest: usize) -> Words {
    let letters = [1, 2, 3, 4, 8, 24, 64, 300, LONGEST][dice.roll(9)];
    let length = dice.roll(longest + 1);
    let left = dice.word(length, letters);
    if dice.roll(4) == 0 {
        let length = dice.roll(longest + 1);
        return (left, dice.word(length, letters));
    }
    let mut right = left.clone();
    for _ in 0..dice.roll(6) {
        dice.edit(&mut right, letters);
    }
    right.truncate(LONGEST);
    if dice.roll(2) == 0 {
        (left, right)
    } else {
        (right, left)
    }
}

fn random(memory: &mut Memory, dice: &mut Dice, longest: usize, words: usize) -> usize {
    for _ in 0..words {
        let words = pair(dice, longest);
        memory.check_pair(&words);
        let k = [0, 1, 2, 3, 4, 8, 40, u16::MAX][dice.roll(8)];
        memory.check_form(&words.0, k);
    }
    words
}

/// What is refused, and with which number and place.
fn refusals(memory: &mut Memory) {
    let word = vec![letter(0); LONGEST + 1];
    let Memory { row, scratch, .. } = memory;
    assert_eq!(
        proved::separate(&word, &word[..1], row, scratch),
        Err((43, LONGEST))
    );
    assert_eq!(
        proved::separate(&word[..2], &word[..1], row, &mut scratch[..79]),
        Err((41, 80))
    );
    assert_eq!(
        proved::separate(&word[..2], &word[..1], &mut row[..1], scratch),
        Err((42, 2))
    );
    assert_eq!(proved::form(&word, 1, row, scratch), Err((43, LONGEST)));
    assert_eq!(
        proved::form(&word[..2], 1, row, &mut scratch[..47]),
        Err((41, 48))
    );
    assert_eq!(
        proved::form(&word[..2], 1, &mut row[..1], scratch),
        Err((42, 2))
    );
}

/// Panics at the first disagreement.
pub fn check(memory: &mut Memory) {
    let mut dice = Dice::new(1);
    let tiny = tiny(memory, &mut dice);
    let short = random(memory, &mut dice, 40, 20_000);
    let middle = random(memory, &mut dice, 400, 2_000);
    let long = random(memory, &mut dice, LONGEST, 60);
    memory.check_pair(&inputs::in_turn(LONGEST));
    memory.check_pair(&inputs::one_more(&mut dice, LONGEST, 20));
    refusals(memory);
    println!(
        "All agree on {tiny} tiny pairs (also with a search by definition), {short} short, {middle} of up to 400 \
         letters and {long} of up to {LONGEST}; and on a form of a word of each."
    );
}
