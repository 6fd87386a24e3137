//! Verse that reads like a libretto's text: singers' names, stanzas, cries, recitatives and refrains, in ISO 8859-1.

use crate::random::Random;

const WORDS: &[&str] = &[
    "amore",
    "notte",
    "città",
    "perché",
    "così",
    "più",
    "cuore",
    "morirò",
    "felicità",
    "libertà",
    "stella",
    "addio",
    "dolce",
    "mano",
    "occhi",
    "sogno",
    "pietà",
    "sarà",
    "mai",
    "sempre",
    "il",
    "la",
    "che",
    "non",
    "mi",
    "tu",
    "di",
    "è",
    "un",
    "le",
    "et",
    "que",
    "pour",
    "âme",
    "été",
    "forêt",
    "garçon",
    "où",
    "déjà",
    "bien",
    "nuit",
    "rêve",
    "fidèle",
    "espérance",
    "lumière",
    "toi",
    "je",
    "ne",
    "vous",
    "dans",
    "der",
    "und",
    "ich",
    "nicht",
    "Königin",
    "Mädchen",
    "Glück",
    "schön",
    "Nächte",
    "süß",
    "für",
    "Herz",
    "Liebe",
    "Zauber",
    "die",
    "mein",
    "ist",
    "wie",
];

const SINGERS: &[&str] = &["LA CONTESSA", "FIGARO", "DON JOSÉ", "MÉLISANDE", "DIE KÖNIGIN DER NACHT", "CORO", "PELLÉAS", "PAPAGENO"];

const CRIES: &[&str] = &["Ah!", "Viva!", "Oh ciel!", "Hélas!", "Weh mir!", "Ha, ha, ha, ha!", "Pietà!", "Là-bas!"];

const ENDS: &[&str] = &[",", ",", ".", "!", ";", "?", ""];

const REFRAINS: &[&str] = &[
    "La la la la, la la la la la la,\nviva l'amore, viva la città!\nLa la la la la, la la la,\nil cuore mio mai più morirà!\n",
    "O nuit d'été, ô nuit fidèle,\nreviens, reviens, reviens à moi,\nô nuit d'été, ô nuit si belle,\nmon âme est toute à toi!\n",
    "Trallallera, trallallera, la la la la la,\nder Vogelfänger, der bin ich ja,\ntrallallera, trallallera, la la la!\n",
];

/// The first so many letters of a libretto.
pub fn libretto(length: usize, random: &mut Random) -> Vec<u8> {
    let mut verse = String::new();
    // Every character here is one letter of ISO 8859-1, so the characters are counted and not the bytes.
    let mut letters = 0;
    while letters < length {
        let part = part(random);
        letters += part.chars().count();
        verse += &part;
    }
    verse.chars().take(length).map(|letter| u8::try_from(letter).expect("the words have letters of ISO 8859-1 only")).collect()
}

/// A singer's name with what is sung: a stanza, a refrain, a cry or a recitative.
fn part(random: &mut Random) -> String {
    let sung = match random.below(7) {
        0 | 1 => random.pick(REFRAINS).to_string(),
        2 => random.pick(CRIES).to_string() + "\n",
        3 => {
            let words = random.between(30, 90);
            line(words, random)
        }
        _ => (0..random.between(4, 6))
            .map(|_| {
                let words = random.between(4, 8);
                line(words, random)
            })
            .collect(),
    };
    format!("{}\n{sung}\n", random.pick(SINGERS))
}

/// A line of so many words: a capital first, a sign at its end.
fn line(words: usize, random: &mut Random) -> String {
    let mut line: Vec<String> = (0..words).map(|_| random.pick(WORDS).to_string()).collect();
    let mut letters = line[0].chars();
    let capital: String = letters.next().into_iter().flat_map(char::to_uppercase).chain(letters.as_str().chars()).collect();
    line[0] = capital;
    line.join(" ") + random.pick(ENDS) + "\n"
}
