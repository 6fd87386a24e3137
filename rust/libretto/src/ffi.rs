//! The C interface of the library, and the only unsafe code of this crate: one declaration and one call for each function.

use crate::{RawAnswer, RawCue, RawDate, RawDays, RawField, RawFinding, RawFolding, RawMovesFinding, RawPart, RawResolving, ResolverMemory};

extern "C" {
    fn libretto_find(
        method: u32,
        phrase: *const u8,
        phrase_len: usize,
        text: *const u8,
        text_len: usize,
        scratch: *mut u16,
        scratch_len: usize,
        list: *mut u32,
        list_len: usize,
    ) -> RawFinding;

    fn libretto_find_moves(
        phrase: *const u8,
        phrase_len: usize,
        text: *const u8,
        text_len: usize,
        scratch: *mut u16,
        scratch_len: usize,
        list: *mut u32,
        list_len: usize,
        moves: *mut u32,
        moves_len: usize,
    ) -> RawMovesFinding;

    fn libretto_relist(
        phrase: *const u8,
        phrase_len: usize,
        text: *const u8,
        text_len: usize,
        list: *const u32,
        list_len: usize,
        start: usize,
        end: usize,
        letters: *const u8,
        letters_len: usize,
        answer: *mut u32,
        answer_len: usize,
    ) -> RawAnswer;

    fn libretto_fold(page: u32, letter: u8) -> RawAnswer;

    fn libretto_fold_text(page: u32, text: *const u8, text_len: usize, target: *mut u8, target_len: usize) -> RawFolding;

    fn libretto_day(year: u32, month: u32, day: u32) -> RawAnswer;

    fn libretto_date(day: u32) -> RawDate;

    fn libretto_read_field(role: u32, book: *const u8, book_len: usize, place: usize, due: u32) -> RawField;

    fn libretto_read_cue(role: u32, book: *const u8, book_len: usize, place: usize) -> RawCue;

    fn libretto_read_book(role: u32, book: *const u8, book_len: usize) -> RawAnswer;

    fn libretto_title(role: u32, book: *const u8, book_len: usize, cue: u32) -> RawPart;

    fn libretto_write_cue(
        role: u32,
        buffer: *mut u8,
        buffer_len: usize,
        phrase: *const u8,
        phrase_len: usize,
        ordinal: u32,
        title: *const u8,
        title_len: usize,
        dated: u32,
        first: u32,
        last: u32,
        house: u32,
    ) -> RawAnswer;

    fn libretto_retitle(
        role: u32,
        book: *const u8,
        book_len: usize,
        cue: u32,
        title: *const u8,
        title_len: usize,
        buffer: *mut u8,
        buffer_len: usize,
    ) -> RawAnswer;

    fn libretto_resolve(
        role: u32,
        day: u32,
        page: u32,
        book: *const u8,
        book_len: usize,
        text: *const u8,
        text_len: usize,
        copy: *mut u8,
        copy_len: usize,
        scratch: *mut u16,
        scratch_len: usize,
        entries: *mut u32,
        entries_len: usize,
    ) -> RawResolving;
}

/// Calls `libretto_find` on slices.
pub(crate) fn find(method: u32, phrase: &[u8], text: &[u8], scratch: &mut [u16], list: &mut [u32]) -> RawFinding {
    // SAFETY: each pointer comes from a slice and stands beside that slice's own length, so it is aligned, not null (also where the slice is
    // empty), and valid for as many entries: for reading with phrase and text, for reading and writing with scratch and list. The exclusive
    // borrows keep scratch and list apart from each other and from phrase and text, and all four borrows outlive the call, which keeps no
    // pointer. The library accepts any method number and any lengths. `RawFinding` has the layout of the C structure (`repr(C)`, three `u32`).
    unsafe {
        libretto_find(
            method,
            phrase.as_ptr(),
            phrase.len(),
            text.as_ptr(),
            text.len(),
            scratch.as_mut_ptr(),
            scratch.len(),
            list.as_mut_ptr(),
            list.len(),
        )
    }
}

/// Calls `libretto_find_moves` on slices.
pub(crate) fn find_moves(phrase: &[u8], text: &[u8], scratch: &mut [u16], list: &mut [u32], moves: &mut [u32]) -> RawMovesFinding {
    // SAFETY: as for `find`; the list of moves is for reading and writing too, and its exclusive borrow keeps it apart from the other four.
    // `RawMovesFinding` has the layout of the C structure (`repr(C)`, four `u32`).
    unsafe {
        libretto_find_moves(
            phrase.as_ptr(),
            phrase.len(),
            text.as_ptr(),
            text.len(),
            scratch.as_mut_ptr(),
            scratch.len(),
            list.as_mut_ptr(),
            list.len(),
            moves.as_mut_ptr(),
            moves.len(),
        )
    }
}

/// Calls `libretto_relist` on slices.
pub(crate) fn relist(phrase: &[u8], text: &[u8], list: &[u32], start: usize, end: usize, letters: &[u8], answer: &mut [u32]) -> RawAnswer {
    // SAFETY: as for `find`; phrase, text, list and letters are for reading, the answer for reading and writing, and its exclusive borrow keeps it
    // apart from the other four. The library accepts any start and end. `RawAnswer` has the layout of the C structure (`repr(C)`, two `u32`).
    unsafe {
        libretto_relist(
            phrase.as_ptr(),
            phrase.len(),
            text.as_ptr(),
            text.len(),
            list.as_ptr(),
            list.len(),
            start,
            end,
            letters.as_ptr(),
            letters.len(),
            answer.as_mut_ptr(),
            answer.len(),
        )
    }
}

/// Calls `libretto_fold`.
pub(crate) fn fold(page: u32, letter: u8) -> RawAnswer {
    // SAFETY: the function takes two numbers and accepts all of them. `RawAnswer` has the layout of the C structure (`repr(C)`, two `u32`).
    unsafe { libretto_fold(page, letter) }
}

/// Calls `libretto_fold_text` on slices.
pub(crate) fn fold_text(page: u32, text: &[u8], target: &mut [u8]) -> RawFolding {
    // SAFETY: each pointer comes from a slice and stands beside that slice's own length, so it is not null (also where the slice is empty) and valid
    // for as many bytes: for reading with the text, for reading and writing with the target. The exclusive borrow keeps the target apart from the
    // text, and both borrows outlive the call, which keeps no pointer. The library accepts any page number and any lengths. `RawFolding` has the
    // layout of the C structure (`repr(C)`, a `u32` and a `usize`, which is `size_t`).
    unsafe { libretto_fold_text(page, text.as_ptr(), text.len(), target.as_mut_ptr(), target.len()) }
}

/// Calls `libretto_day`.
pub(crate) fn day(year: u32, month: u32, day: u32) -> RawAnswer {
    // SAFETY: the function takes three numbers and accepts all of them. `RawAnswer` has the layout of the C structure (`repr(C)`, two `u32`).
    unsafe { libretto_day(year, month, day) }
}

/// Calls `libretto_date`.
pub(crate) fn date(day: u32) -> RawDate {
    // SAFETY: the function takes a number and accepts every one. `RawDate` has the layout of the C structure (`repr(C)`, four `u32`).
    unsafe { libretto_date(day) }
}

/// Calls `libretto_read_field` on a slice.
pub(crate) fn read_field(role: u32, book: &[u8], place: usize, due: u32) -> RawField {
    // SAFETY: as for `read_book`; the library accepts any place and any number as well. `RawField` has the layout of the C structure (`repr(C)`, a
    // `u32` and three `usize`, which is `size_t`).
    unsafe { libretto_read_field(role, book.as_ptr(), book.len(), place, due) }
}

/// Calls `libretto_read_cue` on a slice.
pub(crate) fn read_cue(role: u32, book: &[u8], place: usize) -> RawCue {
    // SAFETY: as for `read_book`; the library accepts any place as well. `RawCue` has the layout of the C structure (`repr(C)`, seven `u32` and five
    // `usize`, which is `size_t`).
    unsafe { libretto_read_cue(role, book.as_ptr(), book.len(), place) }
}

/// Calls `libretto_read_book` on a slice.
pub(crate) fn read_book(role: u32, book: &[u8]) -> RawAnswer {
    // SAFETY: the pointer comes from a slice and stands beside that slice's own length, so it is not null (also where the slice is empty) and valid
    // for reading as many bytes; the borrow outlives the call, which keeps no pointer. The library accepts any role and any bytes. `RawAnswer` has the
    // layout of the C structure (`repr(C)`, two `u32`).
    unsafe { libretto_read_book(role, book.as_ptr(), book.len()) }
}

/// Calls `libretto_title` on a slice.
pub(crate) fn title(role: u32, book: &[u8], cue: u32) -> RawPart {
    // SAFETY: as for `read_book`; the library accepts any index as well. `RawPart` has the layout of the C structure (`repr(C)`, two `usize`, which
    // is `size_t`).
    unsafe { libretto_title(role, book.as_ptr(), book.len(), cue) }
}

/// Calls `libretto_write_cue` on slices.
pub(crate) fn write_cue(role: u32, buffer: &mut [u8], phrase: &[u8], ordinal: u32, title: &[u8], days: RawDays, house: u32) -> RawAnswer {
    // SAFETY: each pointer comes from a slice and stands beside that slice's own length, so it is not null (also where the slice is empty) and valid
    // for as many bytes: for reading with phrase and title, for reading and writing with the buffer. The exclusive borrow keeps the buffer apart
    // from both, and all three borrows outlive the call, which keeps no pointer. The library accepts any role, any ordinal, any days, any house and any
    // lengths. `RawAnswer` has the layout of the C structure (`repr(C)`, two `u32`).
    unsafe {
        libretto_write_cue(
            role,
            buffer.as_mut_ptr(),
            buffer.len(),
            phrase.as_ptr(),
            phrase.len(),
            ordinal,
            title.as_ptr(),
            title.len(),
            days.dated,
            days.first,
            days.last,
            house,
        )
    }
}

/// Calls `libretto_retitle` on slices.
pub(crate) fn retitle(role: u32, book: &[u8], cue: u32, title: &[u8], buffer: &mut [u8]) -> RawAnswer {
    // SAFETY: as for `write_cue`, with book and title for reading; the library accepts any index as well. `RawAnswer` has the layout of the C structure
    // (`repr(C)`, two `u32`).
    unsafe { libretto_retitle(role, book.as_ptr(), book.len(), cue, title.as_ptr(), title.len(), buffer.as_mut_ptr(), buffer.len()) }
}

/// Calls `libretto_resolve` on slices.
pub(crate) fn resolve(role: u32, day: u32, page: u32, book: &[u8], text: &[u8], memory: &mut ResolverMemory<'_>) -> RawResolving {
    // SAFETY: each pointer comes from a slice and stands beside that slice's own length, so it is aligned, not null (also where the slice is
    // empty), and valid for as many entries: for reading with book and text, for reading and writing with the three slices of the memory. The
    // exclusive borrows keep those three apart from each other and from book and text, and all five borrows outlive the call, which keeps no pointer.
    // The library accepts any role, any day, any page number, any bytes and any lengths. `RawResolving` has the layout of the C structure (`repr(C)`,
    // three `u32`).
    unsafe {
        libretto_resolve(
            role,
            day,
            page,
            book.as_ptr(),
            book.len(),
            text.as_ptr(),
            text.len(),
            memory.copy.as_mut_ptr(),
            memory.copy.len(),
            memory.scratch.as_mut_ptr(),
            memory.scratch.len(),
            memory.entries.as_mut_ptr(),
            memory.entries.len(),
        )
    }
}
