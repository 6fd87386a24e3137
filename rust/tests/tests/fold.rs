//! Folding: every letter by every page, texts into targets of every length, and pages that there are not, by the library and by the reference.

use libretto::{fold, fold_text, Page, RawAnswer, RawFolding};
use libretto_tests::pages::{unknown_pages, PAGES};
use libretto_tests::{compare_fold, compare_letter, report, Random};

/// The letters of page 15's own pairs, each capital before its small one.
const PAIRS: [u8; 8] = [0xa6, 0xa8, 0xb4, 0xb8, 0xbc, 0xbd, 0xbe, 0xff];

/// The letter folded by the library, which must not refuse the page.
fn folded(page: u32, letter: u8) -> u8 {
    let RawAnswer { refusal, number } = compare_letter(page, letter);
    assert_eq!(refusal, 0, "page {page}, letter {letter:#04x}");
    u8::try_from(number).unwrap_or_else(|_| panic!("page {page}, letter {letter:#04x} folds to {number}"))
}

/// The letters written by the library, which must not refuse the page.
fn written(page: u32, text: &[u8], target_len: usize, seed: u64) -> usize {
    let RawFolding { refusal, number } = compare_fold(page, text, target_len, seed);
    assert_eq!(refusal, 0, "page {page}");
    number
}

#[test]
fn every_letter() {
    for page in PAGES {
        for letter in 0..=255u8 {
            let once = folded(page, letter);
            assert_eq!(folded(page, once), once, "page {page}, letter {letter:#04x} folded twice");
            for length in [1, 40] {
                assert_eq!(written(page, &vec![letter; length], length, letter.into()), length, "page {page}, {length} letters {letter:#04x}");
            }
        }
        let all: Vec<u8> = (0..=255).collect();
        for target_len in 0..=300 {
            assert_eq!(written(page, &all, target_len, target_len as u64), target_len.min(256), "page {page}, target of {target_len}");
        }
    }
    report("every_letter", 2 * (4 * 256 + 301));
}

/// The letters that the request names, by their numbers, and those that look like letters to be moved and are not.
#[test]
fn letters_by_their_numbers() {
    for page in Page::ALL {
        assert_eq!([b'A', b'Z', b'@', b'[', b'a'].map(|letter| fold(page, letter)), *b"az@[a", "{page:?}");
        assert_eq!([0xc0, 0xc9, 0xd6, 0xd7, 0xd8, 0xde].map(|letter| fold(page, letter)), [0xe0, 0xe9, 0xf6, 0xd7, 0xf8, 0xfe], "{page:?}");
        assert_eq!([0xbf, 0xdf, 0xf7, 0xff].map(|letter| fold(page, letter)), [0xbf, 0xdf, 0xf7, 0xff], "{page:?}");
    }
    assert_eq!(PAIRS.map(|letter| fold(Page::Latin9, letter)), [0xa8, 0xa8, 0xb8, 0xb8, 0xbd, 0xbd, 0xff, 0xff]);
    assert_eq!(PAIRS.map(|letter| fold(Page::Latin1, letter)), PAIRS);

    let differ: Vec<u8> = (0..=255).filter(|&letter| fold(Page::Latin1, letter) != fold(Page::Latin9, letter)).collect();
    assert_eq!(differ, [0xa6, 0xb4, 0xbc, 0xbe], "the letters that the pages fold differently");
}

/// Texts of every length into targets of every length, at every place of the sixteen bytes that a compiler may take at a time. Every third letter is of
/// page 15's own pairs.
#[test]
fn every_length_with_every_other() {
    let mut random = Random::new(91);
    let mut letters = random.word(256, 200);
    for (letter, own) in letters.iter_mut().step_by(3).zip(PAIRS.into_iter().cycle()) {
        *letter = own;
    }
    for page in PAGES {
        for start in 0..16 {
            for text_len in 0..=70 {
                for target_len in 0..=70 {
                    let written = written(page, &letters[start..start + text_len], target_len, random.next());
                    assert_eq!(written, text_len.min(target_len), "page {page}, text of {text_len}, target of {target_len}");
                }
            }
        }
    }
    report("every_length_with_every_other", 2 * 16 * 71 * 71);
}

#[test]
fn long_texts() {
    let mut random = Random::new(92);
    let letters = random.word(256, 100_000);
    for page in PAGES {
        for text_len in [255, 256, 257, 32_767, 32_768, 32_769, 65_535, 65_536, 65_537, 100_000] {
            for target_len in [0, 1, 255, 256, 32_767, 32_768, 32_769, 65_535, 65_536, 65_537, 70_000] {
                let written = written(page, &letters[..text_len], target_len, random.next());
                assert_eq!(written, text_len.min(target_len), "page {page}, text of {text_len}, target of {target_len}");
            }
        }
        for _ in 0..2000 {
            let (start, text_len, target_len) = (random.below(90_000), random.between(0, 5000), random.between(0, 5000));
            let written = written(page, &letters[start..start + text_len], target_len, random.next());
            assert_eq!(written, text_len.min(target_len), "page {page}, text of {text_len} from {start} on, target of {target_len}");
        }
    }
    report("long_texts", 2 * (10 * 11 + 2000));
}

/// Every other page number is refused, and the target stays as it was, which is tested in every compared call.
#[test]
fn unknown_pages_are_refused() {
    let mut random = Random::new(93);
    let letters = random.word(256, 40_000);
    let pages = unknown_pages();
    assert!([0, 2, 14, 16, 257, 271, 0x1_0001, 0x1_000f, 1 << 31, u32::MAX].iter().all(|page| pages.contains(page)));
    for &page in &pages {
        for letter in 0..=255 {
            assert_eq!(compare_letter(page, letter), RawAnswer { refusal: 14, number: 0 }, "page {page}, letter {letter:#04x}");
        }
        for (text_len, target_len) in [(0, 0), (0, 5), (5, 0), (1, 1), (70, 70), (256, 300), (300, 256), (40_000, 40_000)] {
            let refused = compare_fold(page, &letters[..text_len], target_len, random.next());
            assert_eq!(refused, RawFolding { refusal: 14, number: 0 }, "page {page}, text of {text_len}, target of {target_len}");
        }
    }
    report("unknown_pages_are_refused", 305 * (256 + 8));
}

/// An empty vector's slice points to no memory at all.
#[test]
fn texts_without_memory() {
    let none: Vec<u8> = Vec::new();
    for page in Page::ALL {
        assert_eq!(fold_text(page, &none, &mut Vec::new()), 0);
        assert_eq!(fold_text(page, b"LA", &mut Vec::new()), 0);
        let mut target = *b"LA";
        assert_eq!((fold_text(page, &none, &mut target), target), (0, *b"LA"));
    }
}
