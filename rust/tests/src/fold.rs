//! Folding letters and texts, by the library and by the reference.

use crate::lent::{dirt, Lent, Shown};
use crate::Faults;
use libretto::{fold_raw, fold_text_raw, RawAnswer, RawFolding};

/// Folds a letter by the library and by the reference, and compares the answers. Any difference ends the test with the case.
pub fn compare_letter(page: u32, letter: u8) -> RawAnswer {
    let raw = fold_raw(page, letter);
    let library = (raw.refusal, raw.number);
    let reference = reference::fold(page, letter);
    let mut faults = Faults::default();
    faults.when(library != reference, "refusal or letter differ");
    faults.judge(|| format!("page {page}, letter {letter:#04x}\n(refusal, letter): library {library:?}, reference {reference:?}"));
    raw
}

/// Folds a text by the library and by the reference, into targets that are dirty before the call, by the seed, and compares the answers and the whole
/// targets with guards on both sides. Any difference ends the test with the whole case.
pub fn compare_fold(page: u32, text: &[u8], target_len: usize, seed: u64) -> RawFolding {
    let behind = b"LALALALA";
    let held = dirt(target_len, seed);
    let (mut shown, mut target) = (Shown::default(), Lent::default());
    shown.show(text, behind);
    target.soil(held);
    let (library_target, reference_target) = target.lend();
    let raw = fold_text_raw(page, shown.entries(), library_target);
    let library = (raw.refusal, raw.number);
    let reference = reference::fold_text(page, text, reference_target);

    let mut faults = Faults::default();
    faults.when(library != reference, "refusal or the number of letters written differ");
    faults.extend(target.difference("target"));
    faults.when(!shown.intact(text, behind), "the text was written");
    faults.when(raw.refusal != 0 && target.left() != held, "a refused call wrote something");
    faults.judge(|| {
        format!(
            "page {page}, target_len {target_len}, seed {seed}\ntext of {} bytes: \"{}\"\n\
             (refusal, letters written): library {library:?}, reference {reference:?}",
            text.len(),
            text.escape_ascii()
        )
    });
    raw
}
