//! The memory that every call of a measurement is lent, the library's and its twins' alike.

use crate::random::Random;
use libretto::{Method, ResolverMemory, CUES_MAX, CUE_ENTRIES, CUE_MAX, MOVE_ENTRIES, PHRASE_MAX, RESOLVER_SCRATCH, TEXT_MAX};

/// The scratch entries that are enough for every engine: improved FJS needs the most.
const SCRATCH: usize = Method::ImprovedFjs.scratch_entries(PHRASE_MAX);

/// The list's entries, as many as the finder program lends.
pub const LIST: usize = 4096;

/// The entries of a list of moves that has room for all.
const MOVES: usize = MOVE_ENTRIES * TEXT_MAX;

/// Lent memory. It is never cleared between calls: each call meets what the last one left.
#[derive(Clone, PartialEq, Eq)]
pub struct Lent {
    /// The tables of an engine.
    pub scratch: Vec<u16>,
    /// The places found.
    pub list: Vec<u32>,
    /// The moves made.
    pub moves: Vec<u32>,
    /// A book with another title.
    pub book: Vec<u8>,
    copy: Vec<u8>,
    resolver_scratch: Vec<u16>,
    entries: Vec<u32>,
}

impl Lent {
    /// Memory that holds random numbers.
    pub fn dirty(random: &mut Random) -> Lent {
        Lent {
            scratch: (0..SCRATCH).map(|_| random.next() as u16).collect(),
            list: (0..LIST).map(|_| random.next() as u32).collect(),
            moves: (0..MOVES).map(|_| random.next() as u32).collect(),
            book: vec![random.next() as u8; CUES_MAX * CUE_MAX],
            copy: (0..TEXT_MAX).map(|_| random.next() as u8).collect(),
            resolver_scratch: (0..RESOLVER_SCRATCH).map(|_| random.next() as u16).collect(),
            entries: (0..CUE_ENTRIES * CUES_MAX).map(|_| random.next() as u32).collect(),
        }
    }

    /// The parts that the resolver takes, its own scratch among them: it clears that throughout, so it is as long as needed and no longer.
    pub fn for_resolver(&mut self) -> ResolverMemory<'_> {
        ResolverMemory { copy: &mut self.copy, scratch: &mut self.resolver_scratch, entries: &mut self.entries }
    }
}
