/* Writes a cue book from a table: book [--page 1|15] [--bytes] < TABLE > BOOK
 *
 * A line of the table is a cue: ordinal, TAB, phrase, TAB, title. A cue that plays on some days alone has two columns more: TAB, first day, TAB, last
 * day, both as year-month-day and both included; they may also be empty, as a spreadsheet leaves them. A cue that is house only has these two, empty or
 * not, and a column more: TAB, house; this one may be empty too, and the cue is open then. Empty lines and lines that begin with # are passed over. The
 * book is in ISO 8859-1, or with --page 15 in ISO 8859-15; the table is in UTF-8, or with --bytes in the book's letters. In phrase and title
 * \n is byte 10, as in a phrase that goes over a line's end, \xNN is the byte of that hexadecimal number, and \\ is a backslash.
 *
 * Every line that is refused is told on standard error, and no book is written then; the exit status is 1. It is 2 if reading or writing fails. */
#include <stdio.h>
#include <string.h>

#include "date.h"
#include "desk.h"
#include "libretto.h"
#include "page.h"
#include "table.h"

/* The columns of a line, in their order. */
enum { ORDINAL, PHRASE, TITLE, FIRST_DAY, LAST_DAY, HOUSE, COLUMNS };

/* The whole book is kept until every line is accepted: half a book would be taken for a whole one. */
static uint8_t book[LIBRETTO_CUES_MAX * LIBRETTO_CUE_MAX];
static size_t book_len, cues;

/* Reads a column that is a date as its day; gives what is wrong with it, or NULL. */
static const char *read_day(struct field field, uint32_t *day)
{
    uint32_t date[3];

    if (!read_date(field.bytes, field.len, date))
        return "a day is not written as year-month-day, as in 2026-03-14";
    libretto_answer read = libretto_day(date[0], date[1], date[2]);
    *day = read.number;
    return read.refusal == LIBRETTO_OK ? NULL : "a date is not in the calendar's 2000 to 2099";
}

/* Reads the days of a line with so many columns, and whether there are any; gives what is wrong with them, or NULL. */
static const char *read_days(const struct field *columns, size_t count, uint32_t *dated, uint32_t *first, uint32_t *last)
{
    *dated = count > LAST_DAY && columns[FIRST_DAY].len + columns[LAST_DAY].len > 0;
    *first = *last = 0;
    if (!*dated)
        return NULL;
    const char *wrong = read_day(columns[FIRST_DAY], first);
    return wrong != NULL ? wrong : read_day(columns[LAST_DAY], last);
}

/* Reads whether the cue of a line with so many columns is house only; gives what is wrong with it, or NULL. */
static const char *read_house(const struct field *columns, size_t count, uint32_t *house)
{
    static const char word[] = "house";

    *house = count > HOUSE && columns[HOUSE].len > 0;
    if (*house && (columns[HOUSE].len != sizeof word - 1 || memcmp(columns[HOUSE].bytes, word, sizeof word - 1) != 0))
        return "the last column is neither empty nor house";
    return NULL;
}

/* Why a cue was refused. The buffer is never too short for it, and its days are in the calendar. */
static const char *words(uint32_t refusal)
{
    switch (refusal) {
    case LIBRETTO_OK:
        return NULL;
    case LIBRETTO_NO_PHRASE:
        return "the phrase has no letters";
    case LIBRETTO_LONG_PHRASE:
        return "the phrase has more than 1,024 letters";
    case LIBRETTO_BAD_FIELD:
        return "the ordinal is not from 1 to 65,535, or the title has more than 200 letters";
    case LIBRETTO_BAD_DATE:
        return "the first day is after the last";
    default:
        return "the cue was refused";
    }
}

/* Puts the line's cue at the book's end; gives what is wrong with it, or NULL. */
static const char *add_cue(void)
{
    struct field columns[COLUMNS], *phrase = &columns[PHRASE], *title = &columns[TITLE];
    uint32_t dated, first, last, house;

    if (line_len > LINE_ROOM)
        return "the line is too long";
    size_t count = take_columns(columns, COLUMNS);
    if (count != TITLE + 1 && count != LAST_DAY + 1 && count != COLUMNS)
        return "the line is not ordinal, TAB, phrase, TAB, title, with or without TAB, first day, TAB, last day, and these with or without TAB, house";
    long ordinal = read_count(columns[ORDINAL]);
    if (ordinal < 0)
        return "the ordinal is not a number";
    const char *wrong = read_letters(phrase);
    if (wrong == NULL)
        wrong = read_letters(title);
    if (wrong == NULL)
        wrong = read_days(columns, count, &dated, &first, &last);
    if (wrong == NULL)
        wrong = read_house(columns, count, &house);
    if (wrong != NULL)
        return wrong;
    if (cues == LIBRETTO_CUES_MAX)
        return "the book has 999 cues already";

    libretto_answer written = libretto_write_cue(LIBRETTO_OPERATOR, book + book_len, sizeof book - book_len, phrase->bytes, phrase->len,
                                                 (uint32_t)ordinal, title->bytes, title->len, dated, first, last, house);
    if (written.refusal == LIBRETTO_OK) {
        book_len += written.number;
        cues++;
    }
    return words(written.refusal);
}

int main(int argc, char **argv)
{
    if (read_options(argc, argv, NULL) != argc) {
        fputs("usage: book [--page 1|15] [--bytes] < TABLE > BOOK\n", stderr);
        return FAILED;
    }
    int status = read_table(add_cue);
    return status == 0 ? print_book(book, book_len) : status;
}
