/* Gives cues of a book other titles, for translators: retitle [--page 1|15] [--bytes] BOOK < TABLE > NEWBOOK
 *
 * A line of the table is a title: the cue's index in the book from 0, as a show file has it, TAB, and the new title, which may be empty. Empty lines and
 * lines that begin with # are passed over, and of two lines for one cue the later one counts. All else of the book stays as it is. The book is in ISO
 * 8859-1, or with --page 15 in ISO 8859-15; the table is in UTF-8, or with --bytes in the book's letters. In a title \n is byte 10, \xNN is the byte of
 * that hexadecimal number, and \\ is a backslash.
 *
 * What is wrong with the book, and every line that is refused, is told on standard error, and no book is written then; the exit status is 1. It is 2 if
 * reading or writing fails. */
#include <stdio.h>

#include "desk.h"
#include "libretto.h"
#include "page.h"
#include "table.h"

/* The columns of a line, in their order. */
enum { CUE, TITLE, COLUMNS };

/* The book as it is now, and the buffer that it is written anew to; they change places with each title. */
static uint8_t buffers[2][BOOK_ROOM];
static uint8_t *book = buffers[0], *other = buffers[1];
static size_t book_len;

/* Has the title of a cue replaced, in a buffer with so much room. */
static libretto_answer retitle(uint32_t cue, const uint8_t *title, size_t title_len, size_t room)
{
    return libretto_retitle(LIBRETTO_TRANSLATOR, book, book_len, cue, title, title_len, other, room);
}

/* Tells what is wrong with the book and gives 0, or gives 1. A translator may not read it, but is told by a call that has room for no book: a sound one
 * is refused for the buffer then, or for the cue where it has none. */
static int is_sound(const char *path)
{
    libretto_answer tried = retitle(0, book, 0, 0);
    const char *wrong = book_words(tried.refusal);

    if (wrong != NULL)
        fprintf(stderr, "%s: cue %u: %s\n", path, (unsigned)tried.number, wrong);
    return wrong == NULL;
}

/* Has the line's title put into the book; gives what is wrong with it, or NULL. The book is sound, and the buffer has room for any book. */
static const char *put_title(void)
{
    struct field columns[COLUMNS], *title = &columns[TITLE];

    if (line_len > LINE_ROOM)
        return "the line is too long";
    if (take_columns(columns, COLUMNS) != COLUMNS)
        return "the line is not a cue's index, TAB, title";
    long cue = read_count(columns[CUE]);
    if (cue < 0)
        return "the cue's index is not a number";
    const char *wrong = read_letters(title);
    if (wrong != NULL)
        return wrong;

    libretto_answer written = retitle((uint32_t)cue, title->bytes, title->len, BOOK_ROOM);
    if (written.refusal == LIBRETTO_BAD_FIELD)
        return "the title has more than 200 letters";
    if (written.refusal == LIBRETTO_NO_OCCURRENCE)
        return "the book has no cue of this index";
    if (written.refusal != LIBRETTO_OK)
        return "the title was refused";
    uint8_t *old = book;
    book = other;
    other = old;
    book_len = written.number;
    return NULL;
}

int main(int argc, char **argv)
{
    int next = read_options(argc, argv, NULL);

    if (next == 0 || argc != next + 1) {
        fputs("usage: retitle [--page 1|15] [--bytes] BOOK < TABLE > NEWBOOK\n", stderr);
        return FAILED;
    }
    if (!read_file(argv[next], book, BOOK_ROOM, &book_len))
        return FAILED;
    if (!is_sound(argv[next]))
        return REFUSED;
    int status = read_table(put_title);
    return status == 0 ? print_book(book, book_len) : status;
}
