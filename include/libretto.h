/* libretto.h: exact matching over bytes, cue books, and the places of their cues, with every result and every lent entry proved.
 *
 * Every function is reentrant, keeps nothing between calls, allocates nothing, and may be called on any input: what the tables below do not
 * accept is refused, with nothing written except where the resolver refuses a cue for its occurrence (12) or its place (15). Memory is lent by the
 * caller and is left exactly as stated. Link with liblibretto.a.
 * A pointer whose length is 0 is never read or written and may be any non-null pointer.
 */
#ifndef LIBRETTO_H
#define LIBRETTO_H

#include <stddef.h>
#include <stdint.h>

#ifdef __cplusplus
extern "C" {
#endif

/* The largest phrase of a find or a cue, and the largest text of a find or the resolver, in bytes. */
#define LIBRETTO_PHRASE_MAX 1024
#define LIBRETTO_TEXT_MAX 32768

/* The engines. All give one list; each gives the count of its own letter comparisons. For a phrase of m letters in a text of n, m at most n, KMP makes
 * at most 2n - m of them, and FJS at most 3n - 2m. */
enum libretto_method {
    LIBRETTO_NAIVE = 0,
    LIBRETTO_KMP = 1,
    LIBRETTO_HORSPOOL = 2,
    LIBRETTO_SUNDAY = 3,
    LIBRETTO_FJS = 4,
    LIBRETTO_DOUBLE_WINDOW = 5,
    LIBRETTO_BOYER_MOORE = 6,
    LIBRETTO_IMPROVED_FJS = 7
};

/* The scratch entries that a method needs for a phrase of m bytes. */
#define LIBRETTO_SCRATCH_NAIVE(m) ((size_t)0)
#define LIBRETTO_SCRATCH_KMP(m) ((size_t)(m) + 1)
#define LIBRETTO_SCRATCH_HORSPOOL(m) ((size_t)256)
#define LIBRETTO_SCRATCH_SUNDAY(m) ((size_t)256)
#define LIBRETTO_SCRATCH_FJS(m) ((size_t)(m) + 257)
#define LIBRETTO_SCRATCH_DOUBLE_WINDOW(m) ((size_t)256)
#define LIBRETTO_SCRATCH_BOYER_MOORE(m) ((size_t)(m) + 256)
#define LIBRETTO_SCRATCH_IMPROVED_FJS(m) (2 * (size_t)(m) + 258)
/* As many as any find needs: improved FJS with the longest phrase. */
#define LIBRETTO_SCRATCH_MAX LIBRETTO_SCRATCH_IMPROVED_FJS(LIBRETTO_PHRASE_MAX)

/* The last day: 31 December 2099. Days count from 1 January 2000, which is day 0. */
#define LIBRETTO_DAY_MAX 36524

/* The limits of a cue book: the most cues, the longest title in bytes, the largest ordinal, and the bytes of the longest cue. */
#define LIBRETTO_CUES_MAX 999
#define LIBRETTO_TITLE_MAX 200
#define LIBRETTO_ORDINAL_MAX 65535
#define LIBRETTO_CUE_MAX 1246

/* The memory that the resolver needs besides a text copy as long as the text: scratch entries, the same for all calls, and entries for each cue that
 * is resolved. */
#define LIBRETTO_SCRATCH_RESOLVER ((size_t)65535)
#define LIBRETTO_CUE_ENTRIES ((size_t)3)

/* The pages that letters are folded by, each a standard's set of letters. ISO 8859-15 is what French and Finnish texts need: it has the euro sign and
 * the letters S and Z with caron, OE joined and Y with diaeresis at eight bytes where ISO 8859-1 has other signs. */
enum libretto_page {
    LIBRETTO_PAGE_1 = 1,  /* ISO 8859-1 */
    LIBRETTO_PAGE_15 = 15 /* ISO 8859-15 */
};

/* Who makes a call on a book or a cue. The operator may make every call, a translator libretto_retitle alone, and a guest libretto_resolve alone, which
 * passes over the cues that are house only. Any other call by a translator or a guest is refused (19), and so is every call by another number. */
enum libretto_role {
    LIBRETTO_OPERATOR = 0,
    LIBRETTO_TRANSLATOR = 1,
    LIBRETTO_GUEST = 2
};

/* Why a call was refused. They are tested in this order, and the first that applies is returned; only the role (19) is tested ahead of every other, a
 * date or days that a call is given (16) next, 7 to 9 and a cue's own days (16) come as the book is read, the resolver tests 12 and 15 cue by cue, the
 * page (14) is tested after 5 and before 6, and libretto_relist tests the new text's length (4) last. */
enum libretto_refusal {
    LIBRETTO_OK = 0,             /* not refused */
    LIBRETTO_UNKNOWN_METHOD = 1, /* the method is above 7 */
    LIBRETTO_NO_PHRASE = 2,      /* the phrase has 0 bytes */
    LIBRETTO_LONG_PHRASE = 3,    /* the phrase has more than 1,024 bytes */
    LIBRETTO_LONG_TEXT = 4,      /* the text, or the new text of a cut, has more than 32,768 bytes */
    LIBRETTO_SHORT_SCRATCH = 5,  /* the scratch has fewer entries than the method or the resolver needs */
    LIBRETTO_SHORT_BUFFER = 6,   /* the resolver's text copy is shorter than the text */
    LIBRETTO_CUT_FIELD = 7,      /* the book ends inside a field */
    LIBRETTO_WRONG_TAG = 8,      /* a field's tag is not the one due */
    LIBRETTO_BAD_FIELD = 9,      /* a field's length is not allowed, an ordinal is 0 or, to be written, above 65,535, or a house mark is above 1 */
    LIBRETTO_LONG_BOOK = 10,     /* bytes remain after 999 cues */
    LIBRETTO_SHORT_ENTRIES = 11, /* the cue entries are fewer than 3 for each cue that is resolved */
    LIBRETTO_NO_OCCURRENCE = 12, /* a cue's occurrence does not exist; or a book has no cue of the index that is to have another title */
    LIBRETTO_LONG_CUE = 13,      /* a cue, or a book with another title, is longer than the buffer that it is to be written to */
    LIBRETTO_UNKNOWN_PAGE = 14,  /* the page is neither 1 nor 15 */
    LIBRETTO_NOT_FORWARD = 15,   /* a cue's place is not above that of the cue before it */
    LIBRETTO_BAD_DATE = 16,      /* a day is above 36,524, a first day is after the last, or a date is not in the calendar's 2000 to 2099 */
    LIBRETTO_BAD_STRETCH = 17,   /* a stretch ends before it starts, or past the text */
    LIBRETTO_BAD_LIST = 18,      /* a list does not strictly rise, or holds a place where the phrase would pass the text's end */
    LIBRETTO_NOT_ALLOWED = 19    /* the role may not make this call, or there is no such role */
};

/* What a find gives back: a refusal or 0, the total of occurrences, and the letter comparisons made; a refused call gives 0 for both. */
typedef struct {
    uint32_t refusal, total, comparisons;
} libretto_finding;

/* Finds every place of the phrase in the text, overlapping ones included, counted from 0. Letters are compared as they stand: a capital letter and
 * its small one differ. To find whatever the case, fold phrase and text first by one page (libretto_fold_text), as the resolver does.
 *
 * Afterwards the list holds the first places, rising, up to its length, and its entries past those keep their values; the total is full also where
 * the list is shorter, and a short list is no refusal. The scratch's front holds the method's tables, and its entries past them keep their values.
 * What scratch and list held before plays no part. A refused call leaves both as they were. Scratch and list must not overlap each other or the
 * phrase or the text. Boyer-Moore also works in 2,050 bytes of the stack, improved FJS in 512. */
libretto_finding libretto_find(uint32_t method, const uint8_t *phrase, size_t phrase_len, const uint8_t *text, size_t text_len,
                               uint16_t *scratch, size_t scratch_len, uint32_t *list, size_t list_len);

/* The rule that moved the window of FJS on: by the text letter after it, or by the borders of the phrase. */
enum libretto_rule {
    LIBRETTO_RULE_SUNDAY = 1,
    LIBRETTO_RULE_KMP = 2
};

/* The entries of a move: the old start, the new start, and the rule. */
#define LIBRETTO_MOVE_ENTRIES ((size_t)3)

/* What a find with moves gives back: what a find does, and the total of moves; a refused call gives 0 for these three. */
typedef struct {
    uint32_t refusal, total, comparisons, moves;
} libretto_moves_finding;

/* Finds as libretto_find does by LIBRETTO_FJS, with the same refusals, 2 to 5, and lists the moves of the window too: three entries each, the old
 * start and the new one, counted from 0, and the rule. Each is from a start of its own at which the phrase fits the text, so there are at most
 * text_len - phrase_len + 1, and none where the phrase is longer than the text.
 *
 * Afterwards moves holds the first whole moves that fit, and its entries past those keep their values, also one or two at its end that hold no whole
 * move; the total of moves is full also where the list is shorter, and a short list is no refusal. The last move may pass the text's end. Where the
 * last letter differs and no letter follows the window, the engine stops, and that is no move. A refused call leaves all as before. Scratch, list and
 * moves must not overlap each other or the phrase or the text. */
libretto_moves_finding libretto_find_moves(const uint8_t *phrase, size_t phrase_len, const uint8_t *text, size_t text_len, uint16_t *scratch,
                                           size_t scratch_len, uint32_t *list, size_t list_len, uint32_t *moves, size_t moves_len);

/* What a call gives back that answers with one number: a refusal or 0, and a number that each function names. */
typedef struct {
    uint32_t refusal, number;
} libretto_answer;

/* Makes a phrase's list for a text in which a stretch is replaced, from its list for the old text: 0 and the total of places. The stretch is the
 * letters from start on, up to the one before end; the new text is the old one up to start, the new letters, and the old one from end on. The text
 * itself is not changed, and is looked at in no more than phrase_len - 1 letters on either side of the stretch.
 *
 * Places of the list whose phrase ends before the stretch stay; those at its end or after it move by the change of length; all others drop out, and
 * the places where the phrase touches the new letters or crosses their seam are found afresh. So from the old text's list comes the new text's, the
 * same that a find in the new text gives. Of another list that is not refused, the places that stay and move are taken as they are: what a list lacks
 * that was too short for its total, the answer lacks too, unless it is found afresh.
 *
 * Afterwards the answer holds the first places, rising, up to its length, and its entries past those keep their values; the total is full also where
 * the answer is shorter, and a short answer is no refusal. There are at most list_len + phrase_len - 1 + letters_len of them, and they are a list that
 * a further call on the new text takes, so cuts can be made one after another.
 *
 * It is refused for a phrase of 0 bytes (2) or more than 1,024 (3), a text of more than 32,768 bytes (4), a stretch that ends before it starts or past
 * the text (17), a list that does not strictly rise or holds a place where the phrase would pass the text's end (18), and a new text of more than
 * 32,768 bytes (4), in this order. A refused call gives 0 as the number and leaves the answer as it was. The answer must not overlap phrase, text,
 * list or letters. The call also works in 3,069 bytes of the stack. */
libretto_answer libretto_relist(const uint8_t *phrase, size_t phrase_len, const uint8_t *text, size_t text_len, const uint32_t *list,
                                size_t list_len, size_t start, size_t end, const uint8_t *letters, size_t letters_len, uint32_t *answer,
                                size_t answer_len);

/* What a letter folds to by a page: 0 and the folded letter. By page 1, 32 is added to 0x41-0x5A and to 0xC0-0xDE except 0xD7, and every other byte
 * stays. Page 15 is page 1's rule and four pairs besides, the first folding to the second: 0xA6 and 0xA8, 0xB4 and 0xB8, 0xBC and 0xBD, 0xBE and 0xFF.
 * A letter folded a second time stays as it is.
 *
 * It is refused for a page that is neither 1 nor 15 (14), with 0 as the number. */
libretto_answer libretto_fold(uint32_t page, uint8_t letter);

/* What folding a text gives back: a refusal or 0, and the letters written; a refused call gives 0 for them. */
typedef struct {
    uint32_t refusal;
    size_t number;
} libretto_folding;

/* Folds the letters of a text by a page into the target's front, as many as it has room for: 0 and their number, the smaller of the two lengths. The
 * target's bytes past them keep their values. The target must not overlap the text.
 *
 * It is refused for a page that is neither 1 nor 15 (14). A refused call gives 0 as the number and leaves the target as it was. */
libretto_folding libretto_fold_text(uint32_t page, const uint8_t *text, size_t text_len, uint8_t *target, size_t target_len);

/* The day of a date: 0 and the days since 1 January 2000 by the Gregorian calendar, 0 to 36,524. The month is 1 to 12, the day of the month from 1 on.
 *
 * It is refused for a date that the calendar's years 2000 to 2099 do not have (16), with 0 as the number. */
libretto_answer libretto_day(uint32_t year, uint32_t month, uint32_t day);

/* What the date of a day gives back: a refusal or 0, and the date; a refused call gives 0 for all three of its numbers. */
typedef struct {
    uint32_t refusal, year, month, day;
} libretto_calendar_date;

/* The date of a day: 0, and the year, the month and the day of the month of which libretto_day gives this day.
 *
 * It is refused for a day above 36,524 (16), with zeros. */
libretto_calendar_date libretto_date(uint32_t day);

/* A cue book is 0 to 999 cues and nothing after. A cue is three fields: the phrase (tag 1, 1 to 1,024 bytes), the ordinal (tag 2, 2 bytes, high byte
 * first, 1 to 65,535) and the title (tag 3, 0 to 200 bytes). Two more may follow, in this order, and each may be left out: its dates (tag 4, 4 bytes),
 * which are the first and the last day on which it plays, two bytes each, high byte first, both days included; and its house mark (tag 5, 1 byte), 0 for
 * an open cue and 1 for one that is house only. A cue without dates plays always, and one without a house mark is open. A byte 4 behind a title is
 * the tag of that cue's dates, and a byte 5 behind a title or dates the tag of that cue's house mark, also in the 999th cue; any other byte there
 * starts the next cue. A field is the tag in one byte, the length in two, high byte first, and the body; so a cue has 11 bytes besides phrase and title,
 * 7 more with dates, and 4 more with a house mark. For each field these are tested in turn: three header bytes present (7), the tag (8), the length (9), the body
 * present (7), the ordinal not 0 (9), of the dates both days at most 36,524 and the first not after the last (16), and the house mark 0 or 1 (9). */

/* The fields of a cue, by their tags. */
enum libretto_due {
    LIBRETTO_DUE_PHRASE = 1,
    LIBRETTO_DUE_ORDINAL = 2,
    LIBRETTO_DUE_TITLE = 3,
    LIBRETTO_DUE_DATES = 4,
    LIBRETTO_DUE_HOUSE = 5
};

/* A field read: a refusal or 0, where its body starts and how long it is, and the place after it. A refused field gives 0 for these three. */
typedef struct {
    uint32_t refusal;
    size_t start, len, end;
} libretto_field;

/* Reads the field that is due at a place of the book, a byte's index from 0. It is refused for a role other than the operator's (19), and then with 7,
 * 8, 9 or 16 in the order above. A place past the book's end, however large, meets 7. A due that is no field's tag meets 7 where three header bytes are
 * not present, and 8 otherwise, since no byte is its tag. Nothing is written. */
libretto_field libretto_read_field(uint32_t role, const uint8_t *book, size_t book_len, size_t place, uint32_t due);

/* A cue read: a refusal or 0, the ordinal, the dates, the house mark, where phrase and title start in the book and how long they are, and the place
 * after the cue, its dates and its house mark included. Of a cue with dates, dated is 1 and first and last are its days; of one without, all three are
 * 0. Of a cue with a house mark, marked is 1 and house is the mark, 1 for house only and 0 for an open cue that says so; of one without, both are 0. A
 * refused cue gives 0 for all but the refusal. */
typedef struct {
    uint32_t refusal, ordinal, dated, first, last, marked, house;
    size_t phrase_start, phrase_len, title_start, title_len, end;
} libretto_cue;

/* Reads the cue at a place of the book, a byte's index from 0: its three fields, its dates where a byte 4 stands behind the title, and its house mark
 * where a byte 5 stands behind these; and the first refusal among them, 7, 8, 9 or 16. A role other than the operator's is refused before (19). A place
 * at or past the book's end meets 7. To read all cues, start at 0 and go on at the end of each cue up to the book's length; that a book has at most 999
 * of them is tested where a whole book is read. Nothing is written. */
libretto_cue libretto_read_cue(uint32_t role, const uint8_t *book, size_t book_len, size_t place);

/* Reads a whole book: 0 and its number of cues, open and house only, whenever they play. A role other than the operator's gives 19 and 0. Then a refused
 * book gives 7, 8, 9 or 16 and the index, from 0, of the cue where it was refused, or 10 and 999. Nothing is written. */
libretto_answer libretto_read_book(uint32_t role, const uint8_t *book, size_t book_len);

/* A part of a book: the bytes from start on, len of them. */
typedef struct {
    size_t start, len;
} libretto_part;

/* The part of the book where the title of a cue stands, by the cue's index from 0. It is start 0 and len 0, the empty part at the book's front, for a
 * role other than the operator's, and where the whole book is refused or has no such cue. Nothing is written. */
libretto_part libretto_title(uint32_t role, const uint8_t *book, size_t book_len, uint32_t cue);

/* Writes a cue at the buffer's start: 0 and the cue's bytes, and the buffer's bytes past them keep their values. With dated 0 the cue has no dates, and
 * first and last play no part, whatever they are: its bytes are 11 + phrase_len + title_len. With any other dated it has first and last as its dates,
 * and 7 bytes more. With house 1 it is house only, and has 4 bytes more; with house 0 it is open, and no house mark is written.
 *
 * It is refused for a role other than the operator's (19), dates with a day above 36,524 or a first day after the last (16), a phrase of 0 bytes (2) or
 * more than 1,024 (3), an ordinal outside 1 to 65,535, a title of more than 200 bytes or a house above 1 (9), and a buffer shorter than the cue (13), in
 * this order. A refused call gives 0 as the number and leaves the buffer as it was. The buffer must not overlap phrase or title. */
libretto_answer libretto_write_cue(uint32_t role, uint8_t *buffer, size_t buffer_len, const uint8_t *phrase, size_t phrase_len, uint32_t ordinal,
                                   const uint8_t *title, size_t title_len, uint32_t dated, uint32_t first, uint32_t last, uint32_t house);

/* Writes a book anew at the buffer's start, in which the cue of this index, from 0 among all cues of the book, has another title, and nothing else is
 * changed: 0 and the new book's bytes, and the buffer's bytes past them keep their values. Besides the letters of that title and the two bytes of its
 * length every byte of the book is written as it stands, also a house mark of 0. A buffer of book_len + title_len bytes is always long enough.
 *
 * It is refused for a role other than the operator's and the translator's (19, with 0 as the number); a book that is refused as a whole, with the answer
 * that libretto_read_book gives the operator; a title of more than 200 bytes (9), a cue that the book does not have (12), and a buffer shorter than the
 * new book (13), these three with 0 as the number; in this order. So a 9 with the number 0 is cue 0's or the title's; the same call with a title of 0
 * bytes meets it again if it is cue 0's. A refused call leaves the buffer as it was. The buffer must not overlap book or title. */
libretto_answer libretto_retitle(uint32_t role, const uint8_t *book, size_t book_len, uint32_t cue, const uint8_t *title, size_t title_len,
                                 uint8_t *buffer, size_t buffer_len);

/* What the resolver gives back: a refusal or 0, the number of cues that are resolved or of the refused one, and the letters of the text read; a refused
 * call gives 0 for the last, except where a cue's occurrence does not exist (12) or its place is not above that of the cue before it (15). */
typedef struct {
    uint32_t refusal, number, reads;
} libretto_resolving;

/* Finds the place of each cue of a book that plays on a day in the text: that of the occurrence which the cue's ordinal counts, from 1, of its folded
 * phrase in the folded text, overlapping ones included. The cues that play are those without dates and those whose dates hold the day, the first and
 * the last included. The operator resolves all of them, and a guest those that are open; all other cues of the book are passed over, wherever they stand
 * and whether the text has them or not. Phrase and text are folded by the page. A text that was folded by it beforehand gives the same places, lines and
 * columns. The cues run forward: each place must be above that of the cue before it that is resolved.
 *
 * The cues are resolved in groups, as many one after another as fit into 64 cues and 4,096 phrase bytes, of those that are resolved alone. The phrases of
 * a group are found together, by one walk over the text that reads each of its letters once. So the reads are text_len times the groups.
 *
 * It gives 0, the number of cues that are resolved, and the reads. There are three entries for each of them, one cue behind another: its place, counted
 * from 0, its line and its column. A line ends at byte 10, at byte 13, or at the pair 13 10, which is one ending. The line is 1 plus the endings wholly
 * before the place; the column is 1 plus the bytes between the last of them, or the text's start, and the place. At a place between the bytes of a pair
 * the pair has not ended yet. The copy's first text_len bytes are the folded text; the scratch is 0 throughout, however long it is; the copy's bytes and
 * the entries past those written keep their values. What the lent memory held before plays no part. A scratch longer than the needed one is used too,
 * for more rows of a group's table, which changes nothing but the time. Where no cue is resolved, the number and the reads are 0, and the copy and the
 * scratch are the same.
 *
 * It is refused for a role other than the operator's and the guest's (19), a day above 36,524 (16), a text of more than 32,768 bytes (4), a scratch of
 * fewer than 65,535 entries (5), a page that is neither 1 nor 15 (14), a copy shorter than the text (6), and fewer than 3 entries for each cue that is
 * resolved (11), all with 0 as the number, in this order; and for a book that is refused as a whole, with the answer that libretto_read_book gives the
 * operator, which comes between 6 and 11, whether the refused cue would be resolved or not: it names the cue by its index among all cues of the book, for
 * a guest too. These give 0 as the reads and leave all as before. A 16 is the day's where the day is above 36,524, and a cue's otherwise.
 *
 * Then the cues that are resolved are tested one by one, in the book's order: that the cue's occurrence exists (12), and that its place is above that of
 * the one before it (15), which the first of them does not have. At the first cue that fails, the answer is 12 or 15, the cue's number, and text_len
 * times the groups up to its own, which is included: the entries of the resolved cues before it are written, those of this cue and the later ones keep
 * their values, and copy and scratch are as after success. The operator is told the cue's index from 0 among all cues of the book, and a guest that
 * among its open cues, whether they play or not.
 *
 * So two books that are not refused as a whole and have the same open cues in the same order give a guest, in calls otherwise alike, the same answer and
 * leave the same memory, whatever cues are house only in either and however many.
 *
 * Copy, scratch and entries must not overlap each other or the book or the text. The call also works in 2,560 bytes of the stack, by either page. */
libretto_resolving libretto_resolve(uint32_t role, uint32_t day, uint32_t page, const uint8_t *book, size_t book_len, const uint8_t *text,
                                    size_t text_len, uint8_t *copy, size_t copy_len, uint16_t *scratch, size_t scratch_len, uint32_t *entries,
                                    size_t entries_len);

#ifdef __cplusplus
}
#endif

#endif
