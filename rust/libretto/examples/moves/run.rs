//! A run of FJS, window by window, as the library made it.
//!
//! No letter is compared here. One call gives places, comparisons, moves and tables. How many letters were compared in a single window is the
//! difference of two more calls: on a text that is cut at a window's end, the engine makes the windows up to that one and no others, and compares in
//! them what it compares in the whole text. From that number, the letters carried, and whether the window is an occurrence, it is clear which letters
//! were compared and which of them differed. Where the answers of the library do not fit together, the program ends rather than draw them.

use libretto::{find, find_moves, Method, Move, Refusal, Rule, MOVE_ENTRIES, PHRASE_MAX, TEXT_MAX};

/// The Sunday entries at the scratch's front; the KMP entries follow them.
const LETTERS: usize = 256;

/// What happened to a letter of the phrase in a window.
#[derive(Clone, Copy, Debug, PartialEq, Eq)]
pub enum Outcome {
    /// Known to be equal from the window before, and not compared again.
    Carried,
    /// Compared and equal.
    Equal,
    /// Compared and not equal.
    Differs,
    /// Not compared.
    Unseen,
}

/// A window of the run.
pub struct Window {
    /// Its place in the text, from 0.
    pub start: usize,
    /// What happened to each letter of the phrase.
    pub outcomes: Vec<Outcome>,
    /// The letter of the phrase, from 1, that differs; none in an occurrence.
    pub differs: Option<usize>,
    /// Its move; none where no letter follows for Sunday's rule, and the engine stops.
    pub step: Option<Move>,
}

/// A run of FJS.
pub struct Run<'a> {
    pub phrase: &'a [u8],
    pub text: &'a [u8],
    /// The places of the phrase in the text, rising.
    pub places: Vec<usize>,
    pub comparisons: u32,
    pub moves: Vec<Move>,
    pub windows: Vec<Window>,
    scratch: Vec<u16>,
}

impl Run<'_> {
    /// The run for this phrase and this text, or why the library refuses them.
    pub fn new<'a>(phrase: &'a [u8], text: &'a [u8]) -> Result<Run<'a>, Refusal> {
        // What is longer than the limits is refused, so no more than the limits need is allocated.
        let starts = (text.len().min(TEXT_MAX) + 1).saturating_sub(phrase.len());
        let mut scratch = vec![0; Method::Fjs.scratch_entries(phrase.len().min(PHRASE_MAX))];
        let (mut list, mut numbers) = (vec![0; starts], vec![0; MOVE_ENTRIES * starts]);
        let finding = find_moves(phrase, text, &mut scratch, &mut list, &mut numbers)?;
        let rule = |number| Rule::from_number(number).expect("the library lists 1 and 2 alone");
        let moves = numbers.chunks_exact(MOVE_ENTRIES).take(finding.moves as usize);
        let mut run = Run {
            phrase,
            text,
            places: list[..finding.total as usize].iter().map(|&place| place as usize).collect(),
            comparisons: finding.comparisons,
            moves: moves.map(|entries| Move { old: entries[0], new: entries[1], rule: rule(entries[2]) }).collect(),
            windows: Vec::new(),
            scratch,
        };
        run.windows = run.windows_in_order();
        Ok(run)
    }

    /// The letters of the phrase.
    pub fn m(&self) -> usize {
        self.phrase.len()
    }

    /// The letters of the text.
    pub fn n(&self) -> usize {
        self.text.len()
    }

    /// How far Sunday's rule moves the window if this letter follows it.
    pub fn sunday_shift(&self, letter: u8) -> usize {
        usize::from(self.scratch[usize::from(letter)])
    }

    /// How far KMP's rule moves the window if letter j of the phrase, from 1, differs; m + 1 stands for an occurrence.
    pub fn kmp_shift(&self, j: usize) -> usize {
        j - self.kmp_entry(j)
    }

    fn kmp_entry(&self, j: usize) -> usize {
        usize::from(self.scratch[LETTERS + j - 1])
    }

    /// The moves that this rule made.
    pub fn moves_by(&self, rule: Rule) -> usize {
        self.moves.iter().filter(|step| step.rule == rule).count()
    }

    fn windows_in_order(&self) -> Vec<Window> {
        let mut windows = Vec::new();
        let mut steps = self.moves.iter().copied();
        let (mut start, mut carried, mut before) = (0, 0, 0);
        while start + self.m() <= self.n() {
            let step = steps.next();
            let comparisons = self.comparisons_up_to(start);
            let window = self.window(start, carried, comparisons - before, step);
            before = comparisons;
            (start, carried) = self.next(&window);
            windows.push(window);
            if step.is_none() {
                break;
            }
        }
        assert_eq!(steps.next(), None, "a move starts at a window");
        assert_eq!(before, self.comparisons as usize, "the comparisons of the windows add up to those of the run");
        windows
    }

    /// The comparisons of all windows up to the one at this start.
    fn comparisons_up_to(&self, start: usize) -> usize {
        let mut scratch = vec![0; self.scratch.len()];
        let cut = &self.text[..start + self.m()];
        find(Method::Fjs, self.phrase, cut, &mut scratch, &mut []).expect("the whole text was not refused").comparisons as usize
    }

    /// The window at this start, which carries so many letters and in which so many were compared.
    fn window(&self, start: usize, carried: usize, compared: usize, step: Option<Move>) -> Window {
        let m = self.m();
        let found = self.places.binary_search(&start).is_ok();
        // A window that carries nothing compares letter m first, and then the others from letter 1 on.
        let differs = match (found, carried, step.map(|step| step.rule)) {
            (true, ..) => None,
            (false, 0, Some(Rule::Kmp)) => Some(compared - 1),
            (false, 0, _) => Some(m),
            (false, ..) => Some(carried + compared),
        };
        let last_first = carried == 0;
        let outcome = |j: usize| match differs {
            _ if j <= carried => Outcome::Carried,
            Some(differing) if j == differing => Outcome::Differs,
            _ if last_first && j == m => Outcome::Equal,
            Some(differing) if j > differing || (last_first && differing == m) => Outcome::Unseen,
            _ => Outcome::Equal,
        };
        let outcomes: Vec<Outcome> = (1..=m).map(outcome).collect();
        let seen = outcomes.iter().filter(|outcome| matches!(outcome, Outcome::Equal | Outcome::Differs)).count();
        assert_eq!(seen, compared, "the letters compared in the window at {start}");
        Window { start, outcomes, differs, step }
    }

    /// The start of the window after this one, and the letters that it carries: the library's move must be what its tables give.
    fn next(&self, window: &Window) -> (usize, usize) {
        let after = window.start + self.m();
        let carries = window.outcomes[0] == Outcome::Carried;
        let Some(step) = window.step else {
            assert!(after == self.n() && window.differs == Some(self.m()) && !carries, "only a window at the text's end stops");
            return (after, 0);
        };
        let (shift, carried) = match step.rule {
            Rule::Sunday => {
                assert!(
                    window.differs == Some(self.m()) && !carries,
                    "Sunday's rule moves a window that carries nothing and whose last letter differs"
                );
                (self.sunday_shift(self.text[after]), 0)
            }
            Rule::Kmp => {
                let j = window.differs.unwrap_or(self.m() + 1);
                (self.kmp_shift(j), self.kmp_entry(j).max(1) - 1)
            }
        };
        let new = window.start + shift;
        assert_eq!((step.old as usize, step.new as usize), (window.start, new), "the move of the window at {} by {}", window.start, step.rule);
        (new, carried)
    }
}
