//! Document 02, (xiii): the list of a phrase after a stretch of the text is replaced. The refusals 2 to 4 and the short-list rule are those of
//! document 01.

use crate::naive;

/// The text after the cut: the old text up to the stretch, the new letters, the old text from its end on. The stretch lies within the text:
/// start <= end <= text.len().
pub fn new_text(text: &[u8], start: usize, end: usize, letters: &[u8]) -> Vec<u8> {
    [&text[..start], letters, &text[end..]].concat()
}

/// Refusal number and total; and what the answer holds afterwards.
pub fn relist(phrase: &[u8], text: &[u8], list: &[u32], start: usize, end: usize, letters: &[u8], answer: &mut [u32]) -> (u32, u32) {
    let (m, n) = (phrase.len(), text.len());

    // The refusals, in the order of the words; nothing is written.
    if m == 0 {
        return (2, 0);
    }
    if m > 1024 {
        return (3, 0);
    }
    if n > 32_768 {
        return (4, 0);
    }
    // A stretch that ends before it starts or past the text. One that starts past the text does one or the other.
    if end < start || end > n {
        return (17, 0);
    }
    // A list that does not strictly rise, or holds a place where the phrase would pass the old text's end. The sum is of 64 bits, since a place may
    // be any number of 32.
    let rises = list.windows(2).all(|pair| pair[0] < pair[1]);
    let passes = |&place: &u32| place as u64 + m as u64 > n as u64;
    if !rises || list.iter().any(passes) {
        return (18, 0);
    }
    // The new text's length is tested before the new text is put together, since the new letters may be any number.
    if n - (end - start) + letters.len() > 32_768 {
        return (4, 0);
    }

    // Old places whose phrase ends before the stretch stay.
    let stay: Vec<u32> = list.iter().copied().filter(|&place| place as usize + m <= start).collect();

    // Found afresh by method 0 in the new letters and at most m − 1 letters on either side, fewer where the text has fewer. No occurrence there lies
    // wholly in the letters of one side, since they are fewer than m; so none is one of those that stay or move.
    let new = new_text(text, start, end, letters);
    let from = start.saturating_sub(m - 1);
    let to = (start + letters.len() + (m - 1)).min(new.len());
    let fresh: Vec<u32> = naive::run(phrase, &new[from..to]).places.iter().map(|&place| from as u32 + place).collect();

    // Those starting at or after its end move by the signed change of length.
    let change = letters.len() as i64 - (end - start) as i64;
    let moved: Vec<u32> = list.iter().filter(|&&place| place as usize >= end).map(|&place| (place as i64 + change) as u32).collect();

    // Those that stay, the fresh ones, those moved; all others have dropped out.
    let places = [stay, fresh, moved].concat();

    // The answer receives the first places up to its length; entries past those written keep their values; the total is full.
    for (entry, &place) in answer.iter_mut().zip(&places) {
        *entry = place;
    }
    (0, places.len() as u32)
}
