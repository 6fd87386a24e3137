/* What the programs of this folder share that take or make books: their exit statuses, files, and what is wrong with a book. */
#ifndef DESK_H
#define DESK_H

#include <stddef.h>
#include <stdint.h>
#include <stdio.h>

#include "libretto.h"

/* The exit statuses: the library, or a line of a table, was refused; reading or writing failed. */
enum { REFUSED = 1, FAILED = 2 };

/* One byte more than the longest book, so that of a file that is too long enough is read to have it refused. */
#define BOOK_ROOM (LIBRETTO_CUES_MAX * LIBRETTO_CUE_MAX + 1)

/* Reads a file, or as much of it as there is room for; gives 0 if that fails. */
static inline int read_file(const char *path, uint8_t *bytes, size_t room, size_t *len)
{
    FILE *file = fopen(path, "rb");

    if (file == NULL) {
        perror(path);
        return 0;
    }
    *len = fread(bytes, 1, room, file);
    int failed = ferror(file);
    if (failed)
        perror(path);
    fclose(file);
    return !failed;
}

/* Prints a book; gives 0, or the exit status. */
static inline int print_book(const uint8_t *book, size_t book_len)
{
    if (fwrite(book, 1, book_len, stdout) == book_len && fflush(stdout) == 0)
        return 0;
    perror("standard output");
    return FAILED;
}

/* What is wrong with a book that is refused as a whole, or NULL for any other refusal. */
static inline const char *book_words(uint32_t refusal)
{
    switch (refusal) {
    case LIBRETTO_CUT_FIELD:
        return "the book ends inside a field";
    case LIBRETTO_WRONG_TAG:
        return "a field's tag is not the one due";
    case LIBRETTO_BAD_FIELD:
        return "a field's length is not allowed, the ordinal is not from 1 to 65,535, or the house mark is above 1";
    case LIBRETTO_LONG_BOOK:
        return "bytes remain after 999 cues";
    case LIBRETTO_BAD_DATE:
        return "a date is not in the calendar's 2000 to 2099, or the first day is after the last";
    default:
        return NULL;
    }
}

#endif
