//! Times of the proved cores beside independent implementations in plain Rust, on the same words in the same run.

mod agreement;
mod definition;
mod inputs;
mod letter;
mod measure;
mod proved;
mod textbook;
mod twin;

use agreement::Memory;
use inputs::{Dice, Words, letter};
use letter::{LONGEST, Letter};
use std::hint::black_box;
use textbook::{Bytes, Search};
use twin::{BranchFree, Branching};

/// The letters of all the words that a case is measured on, one after the other: so many that the processor does not
/// learn the words by heart, which it does with one or two.
const LETTERS: usize = 1 << 16;

/// The seeds of the words of a case.
fn seeds(length: usize) -> std::ops::Range<u64> {
    7..7 + (LETTERS / length) as u64
}

fn time_pairs(memory: &mut Memory, name: &str, pairs: &[Words]) {
    for words in pairs {
        memory.check_pair(words);
    }
    // Each has row memory and scratch of its own.
    let [mut a, mut b, mut c, mut d] = [(); 4].map(|()| Memory::new());
    let times = measure::medians([
        &mut || {
            for (left, right) in pairs {
                let _ = black_box(proved::separate(
                    black_box(left),
                    right,
                    &mut a.row,
                    &mut a.scratch,
                ));
            }
        },
        &mut || {
            for (left, right) in pairs {
                black_box(twin::separate::<Branching>(
                    black_box(left),
                    right,
                    &mut b.row,
                    &mut b.scratch,
                ));
            }
        },
        &mut || {
            for (left, right) in pairs {
                black_box(twin::separate::<BranchFree>(
                    black_box(left),
                    right,
                    &mut c.row,
                    &mut c.scratch,
                ));
            }
        },
        &mut || {
            for (left, right) in pairs {
                black_box(Search::<Bytes>::default().separate(black_box(left), right, &mut d.row));
            }
        },
        &mut || {
            for (left, right) in pairs {
                black_box(
                    memory
                        .search
                        .separate(black_box(left), right, &mut memory.row),
                );
            }
        },
    ]);
    let [ours, same, library, plain, tuned] = times.map(|time| time / pairs.len() as f64);
    println!(
        "| {name} | {ours:.0} | {same:.0} | **{:.2}** | {library:.0} | {:.2} | {plain:.0} | **{:.1}** | {tuned:.0} | {:.1} |",
        ours / same,
        ours / library,
        plain / ours,
        tuned / ours
    );
}

fn time_form(memory: &mut Memory, name: &str, words: &[Vec<Letter>], k: u16) {
    for word in words {
        memory.check_form(word, k);
    }
    let [mut a, mut b, mut c] = [(); 3].map(|()| Memory::new());
    let times = measure::medians([
        &mut || {
            for word in words {
                let _ = black_box(proved::form(black_box(word), k, &mut a.row, &mut a.scratch));
            }
        },
        &mut || {
            for word in words {
                black_box(twin::form::<Branching>(
                    black_box(word),
                    k,
                    &mut b.row,
                    &mut b.scratch,
                ));
            }
        },
        &mut || {
            for word in words {
                black_box(twin::form::<BranchFree>(
                    black_box(word),
                    k,
                    &mut c.row,
                    &mut c.scratch,
                ));
            }
        },
    ]);
    let [ours, same, library] = times.map(|time| time / words.len() as f64);
    println!(
        "| {name}, k = {k} | {ours:.1} | {same:.1} | **{:.2}** | {library:.1} | {:.2} |",
        ours / same,
        ours / library
    );
}

fn separate_table(memory: &mut Memory, length: usize) {
    println!("\n### separate, two words of {length} letters\n");
    println!(
        "| Words | proved, µs | plain Rust, µs | proved / plain | with Rust's search, µs | proved / that | textbook, µs | \
         textbook / proved | tuned textbook, µs | tuned / proved |"
    );
    println!("|---|--:|--:|--:|--:|--:|--:|--:|--:|--:|");
    type Make = fn(&mut Dice, usize, usize) -> Words;
    let makes: [(&str, Make); 3] = [
        ("unrelated", inputs::unrelated),
        ("one edit in the middle", inputs::one_edit),
        ("three edits", inputs::three_edits),
    ];
    for letters in [4, 24, 64] {
        for (name, make) in makes {
            let pairs: Vec<_> = seeds(length)
                .map(|seed| make(&mut Dice::new(seed), length, letters))
                .collect();
            time_pairs(memory, &format!("{letters} letters, {name}"), &pairs);
        }
    }
    for (place, rank) in [("first", 0), ("middle", 31), ("last", 63)] {
        let pair = inputs::one_more(&mut Dice::new(3), length, rank);
        time_pairs(
            memory,
            &format!("a^h and a^(h+1) among 63 other letters, a the {place}"),
            &[pair],
        );
    }
    time_pairs(memory, "abab... with one edit", &[inputs::in_turn(length)]);
}

/// The words whose forms cost the most: all letters different, falling or mixed, and one letter only.
fn worst_words(length: usize) -> [(&'static str, Vec<Letter>); 3] {
    let falling: Vec<_> = (0..length).rev().map(letter).collect();
    let mut mixed = falling.clone();
    Dice::new(5).shuffle(&mut mixed);
    [
        ("all different, falling", falling),
        ("all different, mixed", mixed),
        ("one letter only", vec![letter(0); length]),
    ]
}

fn form_table(memory: &mut Memory, length: usize) {
    println!("\n### form, a word of {length} letters\n");
    println!(
        "| Word | proved, µs | plain Rust, µs | proved / plain | with Rust's search, µs | proved / that |"
    );
    println!("|---|--:|--:|--:|--:|--:|");
    for letters in [4, 24, 64] {
        let words: Vec<_> = seeds(length)
            .map(|seed| Dice::new(seed).word(length, letters))
            .collect();
        for k in [1, 2, 3, 8] {
            time_form(memory, &format!("{letters} letters"), &words, k);
        }
    }
    for (name, word) in worst_words(length) {
        for k in [1, 2, 3, 8] {
            time_form(memory, name, std::slice::from_ref(&word), k);
        }
    }
}

fn main() {
    let mut memory = Memory::new();
    agreement::check(&mut memory);
    if std::env::args().any(|word| word == "--check") {
        return;
    }
    for length in [LONGEST, 400] {
        separate_table(&mut memory, length);
    }
    for length in [LONGEST, 400] {
        form_table(&mut memory, length);
    }
}
