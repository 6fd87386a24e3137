//! Document 01, "The finder program"; its `bm` line by document 02, (ii), its `double` line by (v), and its last line by (x).

use crate::find;

/// What the finder program prints for this standard input.
pub fn finder_output(input: &[u8]) -> Vec<u8> {
    // An input above 33,793 bytes prints `refused 4`, before any other test.
    if input.len() > 33_793 {
        return b"refused 4\n".to_vec();
    }
    // The phrase up to the first byte 10, then the text to the end. Input without byte 10 is all phrase.
    let (phrase, text): (&[u8], &[u8]) = match input.iter().position(|&letter| letter == 10) {
        Some(place) => (&input[..place], &input[place + 1..]),
        None => (input, &[]),
    };
    // Lines: engine, total, comparisons, and the places in the list.
    let mut output = String::new();
    let engines = [(0, "naive"), (1, "kmp"), (2, "horspool"), (3, "sunday"), (4, "fjs"), (6, "bm"), (5, "double"), (7, "improved")];
    for (method, engine) in engines {
        // Enough for the longest tables, which are those of the improved engine.
        let mut scratch = vec![0; 256 + 2 * (1024 + 1)];
        let mut list = vec![0; 4096];
        let (refusal, total, comparisons) = find(method, phrase, text, &mut scratch, &mut list);
        // A refusal prints `refused` and its number, as one line only.
        if refusal != 0 {
            return format!("refused {refusal}\n").into_bytes();
        }
        output += &format!("{engine} {total} {comparisons}");
        for place in list.iter().take(total as usize) {
            output += &format!(" {place}");
        }
        output += "\n";
    }
    output.into_bytes()
}
