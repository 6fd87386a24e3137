//! A rehearsal's cut applied to a refrain's list: late_cut
//!
//! A stretch of a song is replaced at the last rehearsal. The refrain's list for the new song is made from its list for the old one, and compared with
//! what a find in the whole new song gives.

use libretto::{find_all, relist_all, Method, Refusal};

const SONG: &[u8] = b"We push from the landing, and home we row,\n\
    the lanterns are burning, and home we row,\n\
    the current is turning, so slow we row,\n\
    the moon is behind us, and home we row.\n";

const REFRAIN: &[u8] = b"home we row";

/// What is taken out and what is put there. The second refrain of the song drops out, and a new one starts in the new words and ends in the old ones
/// behind them, so neither of the two alone would show it.
const OLD_WORDS: &[u8] = b"burning, and home we row,\nthe current is turning, so slow";
const NEW_WORDS: &[u8] = b"low,\nthe current is turning, and home";

/// A word for a place of the new list, where the cut starts at `start`.
fn told(place: usize, start: usize) -> String {
    if place + REFRAIN.len() <= start {
        "stays".to_string()
    } else if place < start + NEW_WORDS.len() {
        "fresh".to_string()
    } else {
        // Signed, since a cut may make the text longer or shorter.
        format!("moved by {:+}", NEW_WORDS.len() as i64 - OLD_WORDS.len() as i64)
    }
}

fn main() -> Result<(), Refusal> {
    let old_list = find_all(Method::Fjs, REFRAIN, SONG)?;
    println!("\"{}\" in the old song: {old_list:?}", REFRAIN.escape_ascii());

    // The stretch is where the old words stand in the song, and they stand there once.
    let start = find_all(Method::Fjs, OLD_WORDS, SONG)?[0] as usize;
    let end = start + OLD_WORDS.len();
    println!("letters {start} to {}: \"{}\"", end - 1, OLD_WORDS.escape_ascii());
    println!("are replaced by: \"{}\"", NEW_WORDS.escape_ascii());

    // The old song is given as it was: only the letters next to the stretch are looked at, and none is changed.
    let new_list = relist_all(REFRAIN, SONG, &old_list, start..end, NEW_WORDS)?;
    println!("\"{}\" in the new song:", REFRAIN.escape_ascii());
    for &place in &new_list {
        println!("{place:5}  {}", told(place as usize, start));
    }

    // The new song is put together only to show that the list is the same as one found without the old list.
    let new_song = [&SONG[..start], NEW_WORDS, &SONG[end..]].concat();
    assert_eq!(new_list, find_all(Method::Fjs, REFRAIN, &new_song)?, "a fresh find gives another list");
    println!("A fresh find in the new song gives the same list.");
    Ok(())
}
