//! Memory for compared calls: lent memory, dirty before the call and with guards on both sides, once for the library and once for the reference; and
//! shown memory, which a call may only read.

use crate::Random;
use std::fmt::Debug;
use std::sync::OnceLock;

/// The entries on each side of a lent slice that must stay as they are.
const GUARDS: usize = 8;

/// The longest slice that can be lent, and how far into the dirt a call may begin.
const DIRT: usize = 200_000;
const OFFSETS: usize = 4096;

/// An entry of lent or shown memory: a number of 8, 16 or 32 bits.
pub(crate) trait Entry: Copy + PartialEq + Debug + 'static {
    fn low_bits(number: u64) -> Self;

    /// Where the dirt of this width is kept.
    fn pool() -> &'static OnceLock<Vec<Self>>;
}

macro_rules! entry {
    ($width:ty) => {
        impl Entry for $width {
            fn low_bits(number: u64) -> $width {
                number as $width
            }

            fn pool() -> &'static OnceLock<Vec<$width>> {
                static POOL: OnceLock<Vec<$width>> = OnceLock::new();
                &POOL
            }
        }
    };
}

entry!(u8);
entry!(u16);
entry!(u32);

/// What lent memory of this length holds before a call, by the seed.
pub(crate) fn dirt<T: Entry>(length: usize, seed: u64) -> &'static [T] {
    let pool = T::pool().get_or_init(|| {
        let mut random = Random::new(0x0123_4567_89ab_cdef);
        (0..DIRT + OFFSETS).map(|_| T::low_bits(random.next())).collect()
    });
    let offset = (seed % OFFSETS as u64) as usize;
    &pool[offset..offset + length]
}

/// The guards before a slice and those behind it. The two sides, and the guards of each, differ in their lowest 8 bits.
fn guards<T: Entry>() -> [impl Iterator<Item = T>; 2] {
    [0xfeed_a5c0, 0xbeef_5a30].map(|first| (first..first + GUARDS as u64).map(T::low_bits))
}

/// Memory lent once to the library and once to the reference.
#[derive(Default)]
pub(crate) struct Lent<T> {
    library: Vec<T>,
    reference: Vec<T>,
}

impl<T: Entry> Lent<T> {
    /// Puts what the lent slice holds before the call between guards, on both sides of the comparison.
    pub(crate) fn soil(&mut self, held: &[T]) {
        for memory in [&mut self.library, &mut self.reference] {
            let [front, back] = guards::<T>();
            memory.clear();
            memory.extend(front);
            memory.extend_from_slice(held);
            memory.extend(back);
        }
    }

    /// The slice for the library and the slice for the reference.
    pub(crate) fn lend(&mut self) -> (&mut [T], &mut [T]) {
        let inside = GUARDS..self.library.len() - GUARDS;
        (&mut self.library[inside.clone()], &mut self.reference[inside])
    }

    /// What the library's slice holds.
    pub(crate) fn left(&self) -> &[T] {
        &self.library[GUARDS..self.library.len() - GUARDS]
    }

    /// Where library and reference first differ, guards included, told with both entries and counted from the lent slice's front.
    pub(crate) fn difference(&self, name: &str) -> Option<String> {
        if self.library == self.reference {
            return None;
        }
        let index = (0..self.library.len()).find(|&k| self.library[k] != self.reference[k]).expect("unequal memory differs somewhere");
        Some(format!(
            "{name} entry {} (guards lie below 0 and from {} on): library {:?}, reference {:?}",
            index as i64 - GUARDS as i64,
            self.library.len() - 2 * GUARDS,
            self.library[index],
            self.reference[index]
        ))
    }
}

/// Entries that a call may only read, between guards and entries that a read past them would take for more of the same.
#[derive(Default)]
pub(crate) struct Shown<T> {
    memory: Vec<T>,
    end: usize,
}

impl<T: Entry> Shown<T> {
    pub(crate) fn show(&mut self, entries: &[T], behind: &[T]) {
        let [front, _] = guards::<T>();
        self.memory.clear();
        self.memory.extend(front);
        self.memory.extend_from_slice(entries);
        self.end = self.memory.len();
        self.memory.extend_from_slice(behind);
    }

    /// The entries that the call is given.
    pub(crate) fn entries(&self) -> &[T] {
        &self.memory[GUARDS..self.end]
    }

    /// Whether all is as it was shown.
    pub(crate) fn intact(&self, entries: &[T], behind: &[T]) -> bool {
        let [front, _] = guards::<T>();
        self.memory[..GUARDS].iter().copied().eq(front) && self.entries() == entries && &self.memory[self.end..] == behind
    }
}
