/* The library's eight engines, its late cuts, its book reader, its writer of other titles, its resolver and its folding by page 15 written again in plain
 * C, from the steps of documents 01 and 02, to measure the library against.
 *
 * Each twin takes the memory that the library is lent and leaves it the same: its tables at the scratch's front, the first places in the list. What
 * the library refuses is not tested here: the phrase has 1 to 1,024 bytes, the text at most 32,768, the scratch is long enough, and nothing overlaps.
 * The book reader is the exception: its refusals are its work, and the resolver's and those of another title from the book's own on, but for a short
 * buffer; so is the test of a late cut's list.
 */
#ifndef TWINS_H
#define TWINS_H

#include <stddef.h>
#include <stdint.h>

/* The total of occurrences, and the letter comparisons made. */
struct twin_finding {
    uint32_t total, comparisons;
};

struct twin_finding twin_naive(const uint8_t *phrase, size_t m, const uint8_t *text, size_t n, uint16_t *restrict scratch, uint32_t *restrict list,
                               size_t list_len);
struct twin_finding twin_kmp(const uint8_t *phrase, size_t m, const uint8_t *text, size_t n, uint16_t *restrict scratch, uint32_t *restrict list,
                             size_t list_len);
struct twin_finding twin_horspool(const uint8_t *phrase, size_t m, const uint8_t *text, size_t n, uint16_t *restrict scratch,
                                  uint32_t *restrict list, size_t list_len);
struct twin_finding twin_sunday(const uint8_t *phrase, size_t m, const uint8_t *text, size_t n, uint16_t *restrict scratch, uint32_t *restrict list,
                                size_t list_len);
struct twin_finding twin_fjs(const uint8_t *phrase, size_t m, const uint8_t *text, size_t n, uint16_t *restrict scratch, uint32_t *restrict list,
                             size_t list_len);
struct twin_finding twin_double_window(const uint8_t *phrase, size_t m, const uint8_t *text, size_t n, uint16_t *restrict scratch,
                                       uint32_t *restrict list, size_t list_len);
struct twin_finding twin_boyer_moore(const uint8_t *phrase, size_t m, const uint8_t *text, size_t n, uint16_t *restrict scratch,
                                     uint32_t *restrict list, size_t list_len);
struct twin_finding twin_improved_fjs(const uint8_t *phrase, size_t m, const uint8_t *text, size_t n, uint16_t *restrict scratch,
                                      uint32_t *restrict list, size_t list_len);

/* What a find gives, and the total of moves. */
struct twin_moves_finding {
    struct twin_finding found;
    uint32_t moves;
};

/* FJS with a list of its moves: old start, new start and rule, the first whole ones that fit. */
struct twin_moves_finding twin_fjs_moves(const uint8_t *phrase, size_t m, const uint8_t *text, size_t n, uint16_t *restrict scratch,
                                         uint32_t *restrict list, size_t list_len, uint32_t *restrict moves, size_t moves_len);

/* Every place of the phrase by glibc's memmem, called again one letter after each place; it counts no comparisons and gives the total. */
uint32_t twin_memmem(const uint8_t *phrase, size_t m, const uint8_t *text, size_t n, uint32_t *restrict list, size_t list_len);

/* A refusal or 0, and a number: of places, of cues, of bytes, or the index of the refused cue. */
struct twin_answer {
    uint32_t refusal, number;
};

/* A phrase's list after a late cut: a refusal of the list or 0, and the total. */
struct twin_answer twin_relist(const uint8_t *phrase, size_t m, const uint8_t *text, size_t n, const uint32_t *list, size_t list_len, size_t start,
                               size_t end, const uint8_t *letters, size_t letters_len, uint32_t *restrict lent, size_t lent_len);

struct twin_answer twin_read_book(const uint8_t *book, size_t book_len);

/* The book with another title for the cue of this index, in a buffer that is long enough: 0 and its bytes. */
struct twin_answer twin_retitle(const uint8_t *book, size_t book_len, uint32_t cue, const uint8_t *title, size_t title_len,
                                uint8_t *restrict buffer);

/* The role of a guest; any other one is the operator's. */
enum { TWIN_GUEST = 2 };

/* A refusal or 0, the number of resolved cues or of the refused one, and the letters of the text read. */
struct twin_resolving {
    uint32_t refusal, number, reads;
};

/* The places, lines and columns of the cues of a book that a role has on a day, by page 1 or 15, with a copy of at least n bytes and a scratch of at
 * least 65,535 entries. */
struct twin_resolving twin_resolve(uint32_t role, uint32_t day, uint32_t page, const uint8_t *book, size_t book_len, const uint8_t *text, size_t n,
                                   uint8_t *restrict copy, uint16_t *restrict scratch, size_t scratch_len, uint32_t *restrict entries,
                                   size_t entries_len);

/* Folds n letters by page 15 into a target of as many. */
void twin_fold(const uint8_t *restrict text, size_t n, uint8_t *restrict target);

/* Puts a place into the list if it has room, and counts it. */
static inline void twin_report(struct twin_finding *found, uint32_t *restrict list, size_t list_len, size_t place)
{
    if (found->total < list_len)
        list[found->total] = (uint32_t)place;
    found->total++;
}

#endif
