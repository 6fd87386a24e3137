//! The C twins, and the library's find in other placements, behind safe calls; the only unsafe code of this crate.
//!
//! A twin refuses nothing, so what the library would refuse is asserted here before the call.

use crate::lent::Lent;
use libretto::{Method, Page, RawFinding, ResolverMemory, Role, DAY_MAX, PHRASE_MAX, RESOLVER_SCRATCH, TEXT_MAX};
use std::ops::Range;

/// What an engine's twin gives back.
#[derive(Clone, Copy, Debug, PartialEq, Eq)]
#[repr(C)]
pub struct TwinFinding {
    /// The number of all occurrences.
    pub total: u32,
    /// The letter comparisons made.
    pub comparisons: u32,
}

/// What the twin of a find with moves gives back.
#[derive(Clone, Copy, Debug, PartialEq, Eq)]
#[repr(C)]
pub struct TwinMovesFinding {
    /// What a find gives.
    pub found: TwinFinding,
    /// The number of all moves.
    pub moves: u32,
}

/// What the twins of the book reader, of another title and of late cuts give back.
#[derive(Clone, Copy, Debug, PartialEq, Eq)]
#[repr(C)]
pub struct TwinAnswer {
    /// The refusal's number, or 0.
    pub refusal: u32,
    /// A number of places, of cues or of bytes, or the index of the refused cue.
    pub number: u32,
}

/// What the twin of the resolver gives back.
#[derive(Clone, Copy, Debug, PartialEq, Eq)]
#[repr(C)]
pub struct TwinResolving {
    /// The refusal's number, or 0.
    pub refusal: u32,
    /// The number of resolved cues, or of the refused cue.
    pub number: u32,
    /// The letters of the text that were read.
    pub reads: u32,
}

type Find = unsafe extern "C" fn(*const u8, usize, *const u8, usize, *mut u16, *mut u32, usize) -> TwinFinding;
type FindMoves = unsafe extern "C" fn(*const u8, usize, *const u8, usize, *mut u16, *mut u32, usize, *mut u32, usize) -> TwinMovesFinding;
type Relist =
    unsafe extern "C" fn(*const u8, usize, *const u8, usize, *const u32, usize, usize, usize, *const u8, usize, *mut u32, usize) -> TwinAnswer;
type ReadBook = unsafe extern "C" fn(*const u8, usize) -> TwinAnswer;
type Retitle = unsafe extern "C" fn(*const u8, usize, u32, *const u8, usize, *mut u8) -> TwinAnswer;
type Resolve = unsafe extern "C" fn(u32, u32, u32, *const u8, usize, *const u8, usize, *mut u8, *mut u16, usize, *mut u32, usize) -> TwinResolving;
type Fold = unsafe extern "C" fn(*const u8, usize, *mut u8);

/// The twins compiled with one placement of code.
pub struct Build {
    finds: [Find; 8],
    find_moves: FindMoves,
    relist: Relist,
    read_book: ReadBook,
    retitle: Retitle,
    resolve: Resolve,
    fold: Fold,
}

/// Declares the functions of each build and lists the builds.
macro_rules! builds {
    ($($fold:ident $resolve:ident $retitle:ident $read_book:ident $relist:ident $find_moves:ident: $($find:ident)*;)*) => {
        extern "C" {
            $(
                $(fn $find(phrase: *const u8, m: usize, text: *const u8, n: usize, scratch: *mut u16, list: *mut u32, list_len: usize) -> TwinFinding;)*
                fn $find_moves(
                    phrase: *const u8,
                    m: usize,
                    text: *const u8,
                    n: usize,
                    scratch: *mut u16,
                    list: *mut u32,
                    list_len: usize,
                    moves: *mut u32,
                    moves_len: usize,
                ) -> TwinMovesFinding;
                fn $relist(
                    phrase: *const u8,
                    m: usize,
                    text: *const u8,
                    n: usize,
                    list: *const u32,
                    list_len: usize,
                    start: usize,
                    end: usize,
                    letters: *const u8,
                    letters_len: usize,
                    lent: *mut u32,
                    lent_len: usize,
                ) -> TwinAnswer;
                fn $read_book(book: *const u8, book_len: usize) -> TwinAnswer;
                fn $retitle(book: *const u8, book_len: usize, cue: u32, title: *const u8, title_len: usize, buffer: *mut u8) -> TwinAnswer;
                fn $resolve(
                    role: u32,
                    day: u32,
                    page: u32,
                    book: *const u8,
                    book_len: usize,
                    text: *const u8,
                    n: usize,
                    copy: *mut u8,
                    scratch: *mut u16,
                    scratch_len: usize,
                    entries: *mut u32,
                    entries_len: usize,
                ) -> TwinResolving;
                fn $fold(text: *const u8, n: usize, target: *mut u8);
            )*
        }

        /// The builds that `build.rs` makes. The best of them stands for C.
        pub static BUILDS: [Build; 3] = [$(Build {
            finds: [$($find),*],
            find_moves: $find_moves,
            relist: $relist,
            read_book: $read_book,
            retitle: $retitle,
            resolve: $resolve,
            fold: $fold,
        }),*];
    };
}

builds! {
    twin_fold_plain twin_resolve_plain twin_retitle_plain twin_read_book_plain twin_relist_plain twin_fjs_moves_plain: twin_naive_plain twin_kmp_plain twin_horspool_plain twin_sunday_plain twin_fjs_plain twin_double_window_plain twin_boyer_moore_plain twin_improved_fjs_plain;
    twin_fold_wide twin_resolve_wide twin_retitle_wide twin_read_book_wide twin_relist_wide twin_fjs_moves_wide: twin_naive_wide twin_kmp_wide twin_horspool_wide twin_sunday_wide twin_fjs_wide twin_double_window_wide twin_boyer_moore_wide twin_improved_fjs_wide;
    twin_fold_packed twin_resolve_packed twin_retitle_packed twin_read_book_packed twin_relist_packed twin_fjs_moves_packed: twin_naive_packed twin_kmp_packed twin_horspool_packed twin_sunday_packed twin_fjs_packed twin_double_window_packed twin_boyer_moore_packed twin_improved_fjs_packed;
}

type LibraryFind = unsafe extern "C" fn(u32, *const u8, usize, *const u8, usize, *mut u16, usize, *mut u32, usize) -> RawFinding;

/// Declares the copies of the library's find and lists them.
macro_rules! placements {
    ($($find:ident)*) => {
        extern "C" {
            $(fn $find(
                method: u32,
                phrase: *const u8,
                m: usize,
                text: *const u8,
                n: usize,
                scratch: *mut u16,
                scratch_len: usize,
                list: *mut u32,
                list_len: usize,
            ) -> RawFinding;)*
        }

        /// The copies that `build.rs` makes, which differ in where they lie alone.
        pub static PLACEMENTS: [Placement; 4] = [$(Placement($find)),*];
    };
}

placements! { libretto_find_0 libretto_find_16 libretto_find_32 libretto_find_48 }

/// The library's find in one placement.
pub struct Placement(LibraryFind);

impl Placement {
    /// The library's find.
    pub fn find(&self, method: Method, phrase: &[u8], text: &[u8], lent: &mut Lent) -> RawFinding {
        // SAFETY: each pointer comes from a slice or a vector and stands beside its own length. The exclusive borrow of `lent` keeps scratch and list
        // apart from each other and from phrase and text, and all borrows outlive the call, which keeps no pointer. The library accepts any input.
        // `RawFinding` has the layout of the C structure.
        unsafe {
            (self.0)(
                method.number(),
                phrase.as_ptr(),
                phrase.len(),
                text.as_ptr(),
                text.len(),
                lent.scratch.as_mut_ptr(),
                lent.scratch.len(),
                lent.list.as_mut_ptr(),
                lent.list.len(),
            )
        }
    }
}

extern "C" {
    fn twin_memmem_plain(phrase: *const u8, m: usize, text: *const u8, n: usize, list: *mut u32, list_len: usize) -> u32;
}

impl Build {
    /// The find of this engine's twin, in the scratch and the list.
    pub fn find(&self, method: Method, phrase: &[u8], text: &[u8], lent: &mut Lent) -> TwinFinding {
        assert!((1..=PHRASE_MAX).contains(&phrase.len()) && text.len() <= TEXT_MAX);
        assert!(lent.scratch.len() >= method.scratch_entries(phrase.len()));
        // SAFETY: each pointer comes from a slice or a vector and stands beside its own length; the scratch's length is not passed on, and the twin
        // writes as many entries as the assertion found there. The exclusive borrow of `lent` keeps scratch and list apart from each other and from
        // phrase and text, and all borrows outlive the call, which keeps no pointer. `TwinFinding` has the layout of the C structure.
        unsafe {
            self.finds[method as usize](
                phrase.as_ptr(),
                phrase.len(),
                text.as_ptr(),
                text.len(),
                lent.scratch.as_mut_ptr(),
                lent.list.as_mut_ptr(),
                lent.list.len(),
            )
        }
    }

    /// The twin of the find with moves, in the scratch, the list and the list of moves.
    pub fn find_moves(&self, phrase: &[u8], text: &[u8], lent: &mut Lent) -> TwinMovesFinding {
        assert!((1..=PHRASE_MAX).contains(&phrase.len()) && text.len() <= TEXT_MAX);
        assert!(lent.scratch.len() >= Method::Fjs.scratch_entries(phrase.len()));
        // SAFETY: as for `find`; the list of moves has its own length beside it and is kept apart from the rest by the borrow of `lent`.
        // `TwinMovesFinding` has the layout of the C structure.
        unsafe {
            (self.find_moves)(
                phrase.as_ptr(),
                phrase.len(),
                text.as_ptr(),
                text.len(),
                lent.scratch.as_mut_ptr(),
                lent.list.as_mut_ptr(),
                lent.list.len(),
                lent.moves.as_mut_ptr(),
                lent.moves.len(),
            )
        }
    }

    /// The twin of a late cut.
    pub fn relist(&self, phrase: &[u8], text: &[u8], list: &[u32], stretch: Range<usize>, letters: &[u8], lent: &mut [u32]) -> TwinAnswer {
        assert!((1..=PHRASE_MAX).contains(&phrase.len()) && stretch.start <= stretch.end && stretch.end <= text.len());
        assert!(text.len() <= TEXT_MAX && text.len() - stretch.len() + letters.len() <= TEXT_MAX);
        // SAFETY: each pointer comes from a slice and stands beside its own length, the stretch lies within the text, and the exclusive borrow keeps
        // the answer apart from the rest; all borrows outlive the call, which keeps no pointer. `TwinAnswer` has the layout of the C structure.
        unsafe {
            (self.relist)(
                phrase.as_ptr(),
                phrase.len(),
                text.as_ptr(),
                text.len(),
                list.as_ptr(),
                list.len(),
                stretch.start,
                stretch.end,
                letters.as_ptr(),
                letters.len(),
                lent.as_mut_ptr(),
                lent.len(),
            )
        }
    }

    /// The book reader's twin.
    pub fn read_book(&self, book: &[u8]) -> TwinAnswer {
        // SAFETY: the pointer stands beside its slice's own length, and the borrow outlives the call, which keeps no pointer. The twin accepts any
        // bytes. `TwinAnswer` has the layout of the C structure.
        unsafe { (self.read_book)(book.as_ptr(), book.len()) }
    }

    /// The twin of another title.
    pub fn retitle(&self, book: &[u8], cue: u32, title: &[u8], buffer: &mut [u8]) -> TwinAnswer {
        assert!(buffer.len() >= book.len() + title.len());
        // SAFETY: each pointer comes from a slice; the buffer's length is not passed on, and the twin writes no more bytes than the assertion found room
        // for. The exclusive borrow keeps the buffer apart from book and title, and all borrows outlive the call, which keeps no pointer. The twin accepts
        // any bytes and any index. `TwinAnswer` has the layout of the C structure.
        unsafe { (self.retitle)(book.as_ptr(), book.len(), cue, title.as_ptr(), title.len(), buffer.as_mut_ptr()) }
    }

    /// The resolver's twin.
    pub fn resolve(&self, role: Role, day: u32, page: Page, book: &[u8], text: &[u8], memory: &mut ResolverMemory<'_>) -> TwinResolving {
        assert!(
            role != Role::Translator
                && day <= DAY_MAX
                && text.len() <= TEXT_MAX
                && memory.copy.len() >= text.len()
                && memory.scratch.len() >= RESOLVER_SCRATCH
        );
        // SAFETY: each pointer comes from a slice; the copy's length is not passed on, and the twin writes as many letters as the assertion found room
        // for. The exclusive borrows keep copy, scratch and entries apart from each other and from book and text, and all borrows outlive the call,
        // which keeps no pointer. The twin accepts any bytes. `TwinResolving` has the layout of the C structure.
        unsafe {
            (self.resolve)(
                role.number(),
                day,
                page.number(),
                book.as_ptr(),
                book.len(),
                text.as_ptr(),
                text.len(),
                memory.copy.as_mut_ptr(),
                memory.scratch.as_mut_ptr(),
                memory.scratch.len(),
                memory.entries.as_mut_ptr(),
                memory.entries.len(),
            )
        }
    }

    /// The twin of folding by page 15.
    pub fn fold(&self, text: &[u8], target: &mut [u8]) {
        assert!(target.len() >= text.len());
        // SAFETY: each pointer comes from a slice. The twin reads the text by its own length and writes as many letters as the assertion found room for.
        // The exclusive borrow keeps the target apart from the text, and both borrows outlive the call, which keeps no pointer.
        unsafe { (self.fold)(text.as_ptr(), text.len(), target.as_mut_ptr()) }
    }
}

/// Every place of the phrase by `memmem`, in the list; it gives the total.
pub fn memmem(phrase: &[u8], text: &[u8], lent: &mut Lent) -> u32 {
    assert!(!phrase.is_empty());
    // SAFETY: as for `Build::find`; without a scratch, nothing is written but the list.
    unsafe { twin_memmem_plain(phrase.as_ptr(), phrase.len(), text.as_ptr(), text.len(), lent.list.as_mut_ptr(), lent.list.len()) }
}
