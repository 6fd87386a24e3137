//! The check before any timing: every side of every case must give the same answer and leave the same memory. A difference ends the program.

use crate::lent::{Lent, LIST};
use crate::random::Random;
use crate::sides::Case;
use crate::twins::{self, BUILDS, PLACEMENTS};
use libretto::Method;

/// Checks cases on dirty memory, which is the same for all sides.
pub struct Checker {
    dirt: Lent,
    library: Lent,
    other: Lent,
    checked: u64,
}

impl Checker {
    /// A checker with its memory.
    pub fn new() -> Checker {
        let dirt = Lent::dirty(&mut Random::new(1));
        Checker { library: dirt.clone(), other: dirt.clone(), dirt, checked: 0 }
    }

    /// The number of calls that were found equal to the library's.
    pub fn checked(&self) -> u64 {
        self.checked
    }

    /// Ends the program unless all sides agree on the case.
    pub fn check(&mut self, case: &Case<'_>) {
        for phrase in &case.phrases {
            for text in &case.texts {
                for method in Method::ALL {
                    self.check_engine(&case.name, method, phrase, text);
                }
                self.check_memmem(&case.name, phrase, text);
                self.check_moves(&case.name, phrase, text);
            }
        }
    }

    fn check_engine(&mut self, name: &str, method: Method, phrase: &[u8], text: &[u8]) {
        self.library.clone_from(&self.dirt);
        let raw = libretto::find_raw(method.number(), phrase, text, &mut self.library.scratch, &mut self.library.list);
        let given = (raw.refusal, raw.total, raw.comparisons);
        for (index, placement) in PLACEMENTS.iter().enumerate() {
            self.other.clone_from(&self.dirt);
            let found = placement.find(method, phrase, text, &mut self.other);
            self.agree(&format!("{name}, {method}, placement {index}"), phrase, given, (found.refusal, found.total, found.comparisons));
        }
        for (index, build) in BUILDS.iter().enumerate() {
            self.other.clone_from(&self.dirt);
            let found = build.find(method, phrase, text, &mut self.other);
            self.agree(&format!("{name}, {method}, C build {index}"), phrase, given, (0, found.total, found.comparisons));
        }
        self.other.clone_from(&self.dirt);
        let found = reference::find(method.number(), phrase, text, &mut self.other.scratch, &mut self.other.list);
        self.agree(&format!("{name}, {method}, reference"), phrase, given, found);
    }

    /// `memmem` counts no comparisons and makes no tables in the scratch, so its total and its list are compared with the last engine's.
    fn check_memmem(&mut self, name: &str, phrase: &[u8], text: &[u8]) {
        self.other.list.clone_from(&self.dirt.list);
        let total = twins::memmem(phrase, text, &mut self.other);
        let written = LIST.min(total as usize);
        let listed = self.library.list[..written] == self.other.list[..written];
        // The entry behind the last place holds dirt only if the library found no more places than these.
        let no_more = self.library.list[written..] == self.dirt.list[written..];
        assert!(listed && no_more, "{name}, memmem: the list differs for the phrase {:?}", String::from_utf8_lossy(phrase));
        self.checked += 1;
    }

    fn check_moves(&mut self, name: &str, phrase: &[u8], text: &[u8]) {
        self.library.clone_from(&self.dirt);
        let raw = libretto::find_moves_raw(phrase, text, &mut self.library.scratch, &mut self.library.list, &mut self.library.moves);
        let given = (raw.refusal, raw.total, raw.comparisons);
        for (index, build) in BUILDS.iter().enumerate() {
            self.other.clone_from(&self.dirt);
            let twin = build.find_moves(phrase, text, &mut self.other);
            let moves = raw.moves == twin.moves && self.library.moves == self.other.moves;
            assert!(moves, "{name}, moves, C build {index}: the moves differ for the phrase {:?}", String::from_utf8_lossy(phrase));
            self.agree(&format!("{name}, moves, C build {index}"), phrase, given, (0, twin.found.total, twin.found.comparisons));
        }
    }

    fn agree(&mut self, name: &str, phrase: &[u8], library: (u32, u32, u32), other: (u32, u32, u32)) {
        let phrase = || String::from_utf8_lossy(phrase).into_owned();
        assert_eq!(library, other, "{name}: refusal, total and comparisons of the library (left) differ for the phrase {:?}", phrase());
        assert!(self.library.scratch == self.other.scratch, "{name}: the scratch differs for the phrase {:?}", phrase());
        assert!(self.library.list == self.other.list, "{name}: the list differs for the phrase {:?}", phrase());
        self.checked += 1;
    }
}
