/* A book written anew with one title replaced. */
#include "cue_book.h"

#include <string.h>

enum { NO_CUE = 12, TITLE_MAX = 200 };

/* The place of a cue's title field, by the cue's index, in a book that has been tested and has it. */
static size_t title_field(const uint8_t *book, size_t book_len, uint32_t cue)
{
    for (size_t place = 0;; cue--) {
        for (int field = 0; field < 2; field++)
            place += 3 + twin_number(book + place + 1);
        if (cue == 0)
            return place;
        place += 3 + twin_number(book + place + 1);
        twin_choose(book, book_len, &place, 0, 0);
    }
}

struct twin_answer twin_retitle(const uint8_t *book, size_t book_len, uint32_t cue, const uint8_t *title, size_t title_len, uint8_t *restrict buffer)
{
    struct twin_answer read = twin_read_cues(book, book_len);

    if (read.refusal != 0)
        return read;
    if (title_len > TITLE_MAX)
        return (struct twin_answer){TWIN_BAD_FIELD, 0};
    if (cue >= read.number)
        return (struct twin_answer){NO_CUE, 0};
    size_t place = title_field(book, book_len, cue), body = place + 3, end = body + twin_number(book + place + 1);
    memcpy(buffer, book, body);
    buffer[place + 1] = (uint8_t)(title_len >> 8);
    buffer[place + 2] = (uint8_t)title_len;
    memcpy(buffer + body, title, title_len);
    memcpy(buffer + body + title_len, book + end, book_len - end);
    return (struct twin_answer){0, (uint32_t)(book_len - (end - body) + title_len)};
}
