/* Tables for the programs of this folder: lines of columns with TABs between, in UTF-8 or in the letters of the page. */
#ifndef TABLE_H
#define TABLE_H

#include <ctype.h>
#include <stdio.h>
#include <stdlib.h>

#include "desk.h"
#include "libretto.h"
#include "page.h"

/* Room for the longest cue with each letter written as \xNN, and 100 bytes more for the ordinal, the dates, the TABs and the line's end. */
#define LINE_ROOM (4 * (LIBRETTO_PHRASE_MAX + LIBRETTO_TITLE_MAX) + 100)

/* A column of the line that is being read. */
struct field {
    uint8_t *bytes;
    size_t len;
};

static uint8_t line[LINE_ROOM];
static size_t line_len;

/* Reads the next line without its end, which is byte 10, or 13 and 10; gives 0 if there is none. Of a line that is too long, the length alone is
 * right. */
static inline int read_line(void)
{
    int byte;

    line_len = 0;
    while ((byte = getchar()) != EOF && byte != '\n') {
        if (line_len < LINE_ROOM)
            line[line_len] = (uint8_t)byte;
        line_len++;
    }
    if (line_len > 0 && line_len <= LINE_ROOM && line[line_len - 1] == '\r')
        line_len--;
    return byte != EOF || line_len > 0;
}

/* Takes the line apart at its TABs; gives the number of its columns, of which no more are kept than there is room for. */
static inline size_t take_columns(struct field *columns, size_t columns_room)
{
    size_t count = 0, start = 0;

    for (size_t end = 0; end <= line_len; end++) {
        if (end < line_len && line[end] != '\t')
            continue;
        if (count < columns_room) {
            columns[count].bytes = line + start;
            columns[count].len = end - start;
        }
        count++;
        start = end + 1;
    }
    return count;
}

/* The number that a field of digits writes, or -1 if it is no such field. What is above all ordinals, and so above all indexes of cues, stays above
 * them. */
static inline long read_count(struct field field)
{
    long count = field.len > 0 ? 0 : -1;

    for (size_t i = 0; i < field.len; i++) {
        if (!isdigit(field.bytes[i]))
            return -1;
        if (count <= LIBRETTO_ORDINAL_MAX)
            count = 10 * count + (field.bytes[i] - '0');
    }
    return count;
}

/* Reads the letter that a backslash begins; see read_letter. */
static inline size_t read_escape(const uint8_t *bytes, size_t len, uint8_t *letter)
{
    if (len >= 4 && bytes[1] == 'x' && isxdigit(bytes[2]) && isxdigit(bytes[3])) {
        const char digits[] = {(char)bytes[2], (char)bytes[3], '\0'};
        *letter = (uint8_t)strtoul(digits, NULL, 16);
        return 4;
    }
    if (len >= 2 && (bytes[1] == 'n' || bytes[1] == '\\')) {
        *letter = bytes[1] == 'n' ? '\n' : '\\';
        return 2;
    }
    return 0;
}

/* Reads a sign that UTF-8 writes in two or three bytes, as it does all from 0x80 to 0xFFFF, and gives the number of bytes, or 0 if there is none. */
static inline size_t read_sign(const uint8_t *bytes, size_t len, unsigned *sign)
{
    size_t sign_len = (bytes[0] & 0xE0) == 0xC0 ? 2 : 3;

    if ((sign_len == 3 && (bytes[0] & 0xF0) != 0xE0) || len < sign_len)
        return 0;
    *sign = bytes[0] & (sign_len == 2 ? 0x1F : 0x0F);
    for (size_t i = 1; i < sign_len; i++) {
        if ((bytes[i] & 0xC0) != 0x80)
            return 0;
        *sign = *sign << 6 | (bytes[i] & 0x3F);
    }
    /* UTF-8 writes no sign in more bytes than it needs. */
    return *sign < (sign_len == 2 ? 0x80 : 0x800) ? 0 : sign_len;
}

/* Finds the letter of the page that a sign of Unicode is; gives 0 if the page has none. */
static inline int find_letter(unsigned sign, uint8_t *letter)
{
    *letter = (uint8_t)sign;
    for (size_t i = 0; i < PAGE_15_LETTERS; i++) {
        if (page_15_letters[i].sign == sign) {
            *letter = page_15_letters[i].letter;
            return 1;
        }
        if (page_15_letters[i].letter == sign)
            return 0;
    }
    return sign <= 0xFF;
}

/* Reads a letter from the front of one or more bytes and gives the number of bytes that write it, or 0 if they write no letter of the page. */
static inline size_t read_letter(const uint8_t *bytes, size_t len, uint8_t *letter)
{
    if (bytes[0] == '\\')
        return read_escape(bytes, len, letter);
    if (as_bytes || bytes[0] < 0x80) {
        *letter = bytes[0];
        return 1;
    }
    unsigned sign;
    size_t read = read_sign(bytes, len, &sign);
    return read > 0 && find_letter(sign, letter) ? read : 0;
}

/* What is wrong where no letter could be read from these bytes. */
static inline const char *no_letter(const uint8_t *bytes)
{
    if (bytes[0] == '\\')
        return "a backslash begins none of \\n, \\xNN and \\\\";
    return page == LIBRETTO_PAGE_15 ? "a letter is not in ISO 8859-15, or the table is not in UTF-8" :
           "a letter is not in ISO 8859-1, or the table is not in UTF-8";
}

/* Turns a field into its letters, in place, since no letter is longer than the bytes that write it; gives what is wrong with it, or NULL. */
static inline const char *read_letters(struct field *field)
{
    size_t from = 0, letters = 0;

    while (from < field->len) {
        const uint8_t *bytes = field->bytes + from;
        uint8_t letter;
        size_t read = read_letter(bytes, field->len - from, &letter);
        if (read == 0)
            return no_letter(bytes);
        from += read;
        field->bytes[letters++] = letter;
    }
    field->len = letters;
    return NULL;
}

/* Reads a table from standard input: has each line taken that is not empty and does not begin with #, and tells what is wrong with it; gives 0, or the
 * exit status. */
static inline int read_table(const char *(*take)(void))
{
    int status = 0;

    for (unsigned long number = 1; read_line(); number++) {
        const char *wrong = line_len == 0 || line[0] == '#' ? NULL : take();
        if (wrong != NULL) {
            fprintf(stderr, "line %lu: %s\n", number, wrong);
            status = REFUSED;
        }
    }
    if (!ferror(stdin))
        return status;
    perror("standard input");
    return FAILED;
}

#endif
