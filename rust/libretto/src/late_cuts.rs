//! Late cuts: a phrase's list for a text in which a stretch is replaced, from its list for the old text.

use crate::{ffi, RawAnswer, Refusal, TEXT_MAX};
use std::ops::Range;

/// Makes a phrase's list for a text in which a stretch is replaced, from its list for the old text, and gives the total of places. The stretch is the
/// letters from its start on, up to the one before its end; the new text is the old one up to the start, the new letters, and the old one from the end
/// on. The text itself is not changed, and is looked at in no more than m − 1 letters on either side of the stretch, m being the phrase's length.
///
/// Places of the list whose phrase ends before the stretch stay; those at its end or after it move by the change of length; all others drop out, and
/// the places where the phrase touches the new letters or crosses their seam are found afresh. So from the old text's list comes the new text's, the
/// same that [`find`](crate::find) gives. Of another list that is not refused, the places that stay and move are taken as they are: what a list lacks
/// that was too short for its total, the answer lacks too, unless it is found afresh.
///
/// Afterwards the answer holds the first places, rising, up to its length; its entries past those keep their values. The total is full also where the
/// answer is shorter, and a short answer is no refusal. The places are a list that a further call on the new text takes, so cuts can be made one after
/// another. A refused call leaves the answer as it was.
///
/// ```
/// use libretto::{relist, Refusal};
///
/// // The second "la" of "la la la" becomes "tra la".
/// let mut answer = [9; 4];
/// assert_eq!(relist(b"la", b"la la la", &[0, 3, 6], 3..5, b"tra la", &mut answer), Ok(3));
/// assert_eq!(answer, [0, 7, 10, 9]);
///
/// assert_eq!(relist(b"la", b"la la la", &[0, 3, 6], 3..9, b"", &mut answer), Err(Refusal::BadStretch));
/// assert_eq!(relist(b"la", b"la la la", &[0, 6, 3], 3..5, b"", &mut answer), Err(Refusal::BadList));
/// ```
pub fn relist(phrase: &[u8], text: &[u8], list: &[u32], stretch: Range<usize>, letters: &[u8], answer: &mut [u32]) -> Result<u32, Refusal> {
    let raw = relist_raw(phrase, text, list, stretch.start, stretch.end, letters, answer);
    Refusal::check(raw.refusal)?;
    Ok(raw.number)
}

/// [`relist`] with the stretch as two numbers, and with the refusal's number in place of a [`Refusal`]. The answer's number is the total, and 0 if the
/// call was refused.
///
/// ```
/// let raw = libretto::relist_raw(b"la", b"la la la", &[0, 3, 6], 5, 3, b"", &mut []);
/// assert_eq!((raw.refusal, raw.number), (17, 0));
/// ```
pub fn relist_raw(phrase: &[u8], text: &[u8], list: &[u32], start: usize, end: usize, letters: &[u8], answer: &mut [u32]) -> RawAnswer {
    ffi::relist(phrase, text, list, start, end, letters, answer)
}

/// All places of the phrase's list for the new text, rising, by [`relist`]. The memory for them is allocated here.
///
/// ```
/// use libretto::{find_all, relist_all, Method};
///
/// let (phrase, text) = (b"la la", b"la la, tralala la");
/// let list = find_all(Method::Fjs, phrase, text)?;
/// let cut = relist_all(phrase, text, &list, 5..7, b" la ")?;
/// assert_eq!(cut, find_all(Method::Fjs, phrase, b"la la la tralala la")?);
/// # Ok::<(), libretto::Refusal>(())
/// ```
pub fn relist_all(phrase: &[u8], text: &[u8], list: &[u32], stretch: Range<usize>, letters: &[u8]) -> Result<Vec<u32>, Refusal> {
    // No place of the new text is listed twice, and the fresh ones start in the new letters or less than m before them.
    let most = list.len().saturating_add(phrase.len()).saturating_add(letters.len()).min(TEXT_MAX);
    let mut answer = vec![0; most];
    let total = relist(phrase, text, list, stretch, letters, &mut answer)?;
    answer.truncate(total as usize);
    Ok(answer)
}

#[cfg(test)]
mod tests {
    use super::*;

    #[test]
    fn cuts_of_an_example() {
        let cut = |stretch, letters: &[u8]| relist_all(b"la", b"la la la", &[0, 3, 6], stretch, letters);
        assert_eq!(cut(3..5, b"so"), Ok(vec![0, 6]));
        assert_eq!(cut(3..6, b""), Ok(vec![0, 3]));
        assert_eq!(cut(8..8, b"la"), Ok(vec![0, 3, 6, 8]));
        assert_eq!(relist_all(b"a", b"", &[], 0..0, &[b'a'; 32_768]).map(|places| places.len()), Ok(32_768));
    }

    #[test]
    fn refusals_are_passed_on() {
        assert_eq!(relist_all(b"", b"la", &[], 0..0, b""), Err(Refusal::NoPhrase));
        assert_eq!(relist_all(&[b'a'; 1025], b"la", &[], 0..0, b""), Err(Refusal::LongPhrase));
        assert_eq!(relist_all(b"la", &[b'a'; 32_769], &[], 0..0, b""), Err(Refusal::LongText));
        assert_eq!(relist_all(b"la", b"la", &[0], 2..3, b""), Err(Refusal::BadStretch));
        assert_eq!(relist_all(b"la", b"la", &[0, 1], 0..0, b""), Err(Refusal::BadList));
        assert_eq!(relist_all(b"la", b"la", &[0], 0..0, &[b'a'; 32_767]), Err(Refusal::LongText));
    }
}
