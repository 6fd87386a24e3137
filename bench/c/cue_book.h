/* Reading a cue book: the tests of each field in their order, cue after cue. */
#ifndef TWIN_CUE_BOOK_H
#define TWIN_CUE_BOOK_H

#include "twins.h"

enum { TWIN_CUT_FIELD = 7, TWIN_WRONG_TAG = 8, TWIN_BAD_FIELD = 9, TWIN_LONG_BOOK = 10, TWIN_BAD_DATE = 16 };
enum { TWIN_CUES_MAX = 999, TWIN_DAY_MAX = 36524, TWIN_DATES = 4, TWIN_HOUSE = 5 };

/* The number that two bytes of a book write, high byte first. */
static inline uint32_t twin_number(const uint8_t *bytes)
{
    return (uint32_t)bytes[0] << 8 | bytes[1];
}

/* Tests the field at *place, moves *place behind it, and gives 0 or the refusal. */
static inline uint32_t twin_read_field(const uint8_t *book, size_t book_len, size_t *place, uint8_t tag, size_t least, size_t most)
{
    const uint8_t *field = book + *place;
    size_t left = book_len - *place;

    if (left < 3)
        return TWIN_CUT_FIELD;
    if (field[0] != tag)
        return TWIN_WRONG_TAG;
    size_t length = twin_number(field + 1);
    if (length < least || length > most)
        return TWIN_BAD_FIELD;
    if (left - 3 < length)
        return TWIN_CUT_FIELD;
    if (tag == 2 && field[3] == 0 && field[4] == 0)
        return TWIN_BAD_FIELD;
    if (tag == TWIN_DATES && (twin_number(field + 5) > TWIN_DAY_MAX || twin_number(field + 3) > twin_number(field + 5)))
        return TWIN_BAD_DATE;
    if (tag == TWIN_HOUSE && field[3] > 1)
        return TWIN_BAD_FIELD;
    *place += 3 + length;
    return 0;
}

static inline uint32_t twin_read_cue(const uint8_t *book, size_t book_len, size_t *place)
{
    uint32_t refusal = twin_read_field(book, book_len, place, 1, 1, 1024);
    if (refusal == 0)
        refusal = twin_read_field(book, book_len, place, 2, 2, 2);
    if (refusal == 0)
        refusal = twin_read_field(book, book_len, place, 3, 0, 200);
    if (refusal == 0 && *place < book_len && book[*place] == TWIN_DATES)
        refusal = twin_read_field(book, book_len, place, TWIN_DATES, 4, 4);
    if (refusal == 0 && *place < book_len && book[*place] == TWIN_HOUSE)
        refusal = twin_read_field(book, book_len, place, TWIN_HOUSE, 1, 1);
    return refusal;
}

/* What a cue is to a role on a day, each 0 or 1: whether its number counts it, which that of a guest does not if it is house only, and whether it is
 * resolved, which it is if it plays and is counted. */
struct twin_choice {
    uint32_t counted, resolved;
};

/* What a cue is to a role on a day, of which the place behind its title is given; moves that place behind its dates and its mark if it has them. */
static inline struct twin_choice twin_choose(const uint8_t *book, size_t book_len, size_t *place, uint32_t role, uint32_t day)
{
    struct twin_choice choice = {1, 1};

    if (*place < book_len && book[*place] == TWIN_DATES) {
        const uint8_t *days = book + *place + 3;
        choice.resolved = twin_number(days) <= day && day <= twin_number(days + 2);
        *place += 7;
    }
    if (*place < book_len && book[*place] == TWIN_HOUSE) {
        if (role == TWIN_GUEST && book[*place + 3] == 1)
            choice = (struct twin_choice){0, 0};
        *place += 4;
    }
    return choice;
}

/* Tests the whole book. */
static inline struct twin_answer twin_read_cues(const uint8_t *book, size_t book_len)
{
    size_t place = 0;
    uint32_t cues = 0;

    while (place < book_len) {
        if (cues == TWIN_CUES_MAX)
            return (struct twin_answer){TWIN_LONG_BOOK, TWIN_CUES_MAX};
        uint32_t refusal = twin_read_cue(book, book_len, &place);
        if (refusal != 0)
            return (struct twin_answer){refusal, cues};
        cues++;
    }
    return (struct twin_answer){0, cues};
}

#endif
