//! Evenings: a role, a day, and a book in which some cues are resolved for them and others are passed over.

use crate::books::{book, Cue, CUES, LAST_DAY, MARKS, PHRASE};
use crate::roles::{some_resolving, GUEST};
use crate::Random;

/// Numbers above the last day: the next ones, and some that are a day in their lowest 16 bits, or that would be negative.
pub const NO_DAYS: [u32; 9] = [36_525, 36_526, 65_535, 65_536, 65_536 + 9569, 1 << 24, 1 << 31, (1 << 31) + 9569, u32::MAX];

/// A day, often at an end of the calendar or where its number needs another byte.
pub fn some_day(random: &mut Random) -> u16 {
    [0, 1, 255, 256, LAST_DAY - 1, LAST_DAY, random.between(0, LAST_DAY.into()) as u16][random.below(7)]
}

/// Days among which this one is, often as the first or the last of them, or as both.
pub fn days_around(day: u16, random: &mut Random) -> (u16, u16) {
    let first = [day, 0, day.saturating_sub(1), random.between(0, day.into()) as u16][random.below(4)];
    let last = [day, LAST_DAY, LAST_DAY.min(day + 1), random.between(day.into(), LAST_DAY.into()) as u16][random.below(4)];
    (first, last)
}

/// Days among which this one is not: they end before it, often just before it, or begin after it.
pub fn days_beside(day: u16, random: &mut Random) -> (u16, u16) {
    let before = day == LAST_DAY || (day > 0 && random.below(2) == 0);
    let (low, high) = if before { (0, day - 1) } else { (day + 1, LAST_DAY) };
    let far = random.between(low.into(), high.into()) as u16;
    let near = if before { high } else { low };
    let edge = [near, far][random.below(2)];
    let other = [edge, if before { low } else { high }, random.between(low.into(), high.into()) as u16][random.below(3)];
    (edge.min(other), edge.max(other))
}

/// The cues, of which some get days among which this one is, and some a mark, for a guest that of an open cue, so that all of them are resolved for this
/// role on this day.
pub fn all_resolved(role: u32, cues: &[Cue], day: u16, random: &mut Random) -> Vec<Cue> {
    let marks = if role == GUEST { 2 } else { 3 };
    let resolved = |cue: &Cue| {
        let days = (random.below(2) == 0).then(|| days_around(day, random));
        Cue { days, mark: MARKS[random.below(marks)], ..cue.clone() }
    };
    cues.iter().map(resolved).collect()
}

/// The cue with days or a mark for which it is passed over for this role on this day: it does not play, or it is house only, or both.
pub fn passed_over(role: u32, cue: Cue, day: u16, random: &mut Random) -> Cue {
    let by_mark = role == GUEST && random.below(2) == 0;
    let days = match random.below(3) {
        0 if by_mark => None,
        1 if by_mark => Some(days_around(day, random)),
        _ => Some(days_beside(day, random)),
    };
    Cue { days, mark: if by_mark { Some(1) } else { MARKS[random.below(3)] }, ..cue }
}

/// A role and a day, the cues of a book, and the indices in it of those that are resolved for them.
#[derive(Debug)]
pub struct Evening {
    pub role: u32,
    pub day: u16,
    pub cues: Vec<Cue>,
    pub resolved: Vec<usize>,
}

impl Evening {
    /// An evening without cues.
    pub fn empty(role: u32, random: &mut Random) -> Evening {
        Evening { role, day: some_day(random), cues: Vec::new(), resolved: Vec::new() }
    }

    /// The same cues, which play always and are open.
    pub fn plain(cues: &[Cue], random: &mut Random) -> Evening {
        let (role, day) = (some_resolving(random), some_day(random));
        Evening { role, day, cues: cues.to_vec(), resolved: (0..cues.len()).collect() }
    }

    /// These cues, which are all resolved, with others between them that are not, as far as a book has room: up to so many in each gap, also before the
    /// first and behind the last one.
    pub fn mixed(cues: &[Cue], most: usize, random: &mut Random) -> Evening {
        let role = some_resolving(random);
        let mut evening = Evening::empty(role, random);
        let mut room = CUES - cues.len();
        for (k, cue) in all_resolved(role, cues, evening.day, random).into_iter().enumerate() {
            evening.pass_over(cues, k, most, &mut room, random);
            evening.resolve(cue);
        }
        evening.pass_over(cues, cues.len(), most, &mut room, random);
        evening
    }

    /// Puts a cue that is resolved behind the others.
    pub fn resolve(&mut self, cue: Cue) {
        self.resolved.push(self.cues.len());
        self.cues.push(cue);
    }

    /// The number by which a fault names the resolved cue of this index among them: the index in the book, and for a guest that among the open cues.
    pub fn number(&self, resolved: usize) -> usize {
        let index = self.resolved[resolved];
        let house = self.cues[..index].iter().filter(|cue| cue.is_house()).count();
        index - if self.role == GUEST { house } else { 0 }
    }

    /// Puts some cues that are passed over in the gap before the cue of this index. Each would be at fault if it was resolved, or move those behind it to
    /// another group: it stands in no text or at the place of a cue next to it, or has a long phrase.
    fn pass_over(&mut self, cues: &[Cue], gap: usize, most: usize, room: &mut usize, random: &mut Random) {
        let count = random.between(0, most).min(*room);
        *room -= count;
        for _ in 0..count {
            let near = cues.get((gap + random.below(3)).saturating_sub(1)).filter(|_| random.below(2) == 0);
            let letters = [1, 2, 60, if random.below(8) == 0 { PHRASE } else { 3 }][random.below(4)];
            let other = near.cloned().unwrap_or_else(|| Cue::new(&vec![b'~'; letters], random.between(1, 9) as u16, b"off"));
            self.cues.push(passed_over(self.role, other, self.day, random));
        }
    }

    /// A plain evening or a mixed one, in turn.
    pub fn any(cues: &[Cue], random: &mut Random) -> Evening {
        match random.below(3) {
            0 => Evening::plain(cues, random),
            1 => Evening::mixed(cues, 1, random),
            _ => Evening::mixed(cues, [0, 2, 5][random.below(3)], random),
        }
    }

    pub fn book(&self) -> Vec<u8> {
        book(&self.cues)
    }
}

#[cfg(test)]
mod tests {
    use super::*;
    use crate::books::resolved_of;

    /// What the tests are given is what they take it for.
    #[test]
    fn days_around_and_beside() {
        let mut random = Random::new(111);
        for _ in 0..20_000 {
            let day = some_day(&mut random);
            let (first, last) = days_around(day, &mut random);
            assert!(first <= day && day <= last && last <= LAST_DAY, "{first} to {last} around {day}");
            let (first, last) = days_beside(day, &mut random);
            assert!(first <= last && last <= LAST_DAY && (last < day || day < first), "{first} to {last} beside {day}");
        }
    }

    #[test]
    fn evenings_keep_the_cues() {
        let mut random = Random::new(112);
        for round in 0..2000 {
            let count = random.below(if round % 100 == 0 { CUES + 1 } else { 9 });
            let cues: Vec<Cue> = (0..count).map(|k| Cue::new(b"la", k as u16 + 1, b"")).collect();
            let evening = Evening::any(&cues, &mut random);
            let kept: Vec<Cue> = evening.resolved.iter().map(|&index| Cue { days: None, mark: None, ..evening.cues[index].clone() }).collect();
            assert!(kept == cues && evening.cues.len() <= CUES, "{evening:?}");
            let book = evening.book();
            for before in 0..evening.resolved.len() {
                let number = evening.number(before);
                assert_eq!(resolved_of(evening.role, &book, evening.day.into(), number), before, "the first {number} cues of {evening:?}");
            }
        }
    }
}
