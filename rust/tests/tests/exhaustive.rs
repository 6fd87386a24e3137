//! Every short phrase in every short text, by all methods.

use libretto_tests::words::all_words;
use libretto_tests::{compare, needed, report, METHODS};

/// Every phrase of 1 to `longest_phrase` letters in every text of 0 to `longest_text` letters.
fn all_pairs(letters: usize, longest_phrase: usize, longest_text: usize) {
    let texts: Vec<Vec<u8>> = (0..=longest_text).flat_map(|length| all_words(letters, length)).collect();
    let mut seed = 0;
    for phrase in (1..=longest_phrase).flat_map(|length| all_words(letters, length)) {
        for method in METHODS {
            for text in &texts {
                // Scratch with and without entries past the tables; a list with entries past the places.
                compare(method, &phrase, text, needed(method, phrase.len()) + (seed % 3) as usize, text.len() + 1, seed);
                seed += 1;
            }
        }
    }
}

/// The double window alone, with a letter c in the texts that no phrase has, and texts in which three windows stand side by side: the letter under the
/// window's end is then the phrase's last, another one of it, or absent, and so is the letter m places on, or it lies past the text.
#[test]
fn double_window_by_an_absent_letter() {
    let texts: Vec<Vec<u8>> = (0..=9).flat_map(|length| all_words(3, length)).collect();
    let mut seed = 0;
    for phrase in (1..=3).flat_map(|length| all_words(2, length)) {
        for text in &texts {
            compare(5, &phrase, text, 256 + (seed % 3) as usize, text.len() + 1, seed);
            seed += 1;
        }
    }
    report("double_window_by_an_absent_letter", 14 * 29_524);
}

/// One method's tables of every phrase up to 11 letters of two and up to 7 of three, and its steps in the phrase twice over, where part of it stands
/// again.
fn every_table(name: &str, method: u32) {
    let of_two = (1..=11).flat_map(|length| all_words(2, length));
    let of_three = (1..=7).flat_map(|length| all_words(3, length));
    for (seed, phrase) in (0..).zip(of_two.chain(of_three)) {
        let text = phrase.repeat(2);
        compare(method, &phrase, &text, needed(method, phrase.len()) + (seed % 3) as usize, text.len() + 1, seed);
    }
    report(name, 4094 + 3279);
}

/// One method with phrases of 5 and 6 letters, which are long enough for each of its moves.
fn every_move(name: &str, method: u32) {
    let texts: Vec<Vec<u8>> = (5..=11).flat_map(|length| all_words(2, length)).collect();
    let mut seed = 0;
    for phrase in (5..=6).flat_map(|length| all_words(2, length)) {
        for text in &texts {
            compare(method, &phrase, text, needed(method, phrase.len()), text.len(), seed);
            seed += 1;
        }
    }
    report(name, 96 * 4064);
}

/// DELTA1 and DELTA2.
#[test]
fn boyer_moore_tables() {
    every_table("boyer_moore_tables", 6);
}

/// DELTA2's entries by a part that stands again, by a border, and by neither.
#[test]
fn boyer_moore_moves() {
    every_move("boyer_moore_moves", 6);
}

/// The KMP entries and MAX_Shift.
#[test]
fn improved_tables() {
    every_table("improved_tables", 7);
}

/// MAX_Shift's entries by the widest gap and by KMP's shift, and KMP's shift after a part match that was carried.
#[test]
fn improved_moves() {
    every_move("improved_moves", 7);
}

#[test]
fn two_letters() {
    all_pairs(2, 4, 9);
    report("two_letters", 30 * 1023 * METHODS.count());
}

#[test]
fn three_letters() {
    all_pairs(3, 3, 6);
    report("three_letters", 39 * 1093 * METHODS.count());
}
