/* Prints the show file of a libretto and a cue book for a day: show [--page 1|15] [--bytes] [--guest] DAY TEXT BOOK
 *
 * The day is year-month-day, as in 2026-03-14. Cues that do not play on it are left out of all that follows; the others keep their indexes.
 *
 * First a line for each cue: its index in the book from 0, its place from 0, its line and its column from 1, and its title, which may be empty. Then the
 * refrain list of each phrase: how often it stands in the text, whether in capital or small letters and overlapping ones included, and at which places.
 * Cues whose phrases differ in capital and small letters alone count on one refrain, which is printed as the first of them writes it.
 *
 * Text and book are in ISO 8859-1, or with --page 15 in ISO 8859-15. Titles and phrases are printed in UTF-8, or with --bytes as they stand. A byte 10
 * in them is printed as \n, any other control byte as \xNN with its hexadecimal number, and a backslash as \\, so that each keeps to its line.
 *
 * With --guest it is the show file of a guest, who may have the book resolved and no more: a line for each open cue that plays, in the book's order, with
 * its place, its line and its column. Indexes, titles and refrains are left out, since they are read from the cues. Where a cue is not found or does not
 * run forward, its number counts the open cues of the book.
 *
 * What the library refuses is told on standard error, and no show file is printed then; the exit status is 1. It is 2 if reading or writing fails. */
#include <assert.h>
#include <stdio.h>
#include <string.h>

#include "date.h"
#include "desk.h"
#include "libretto.h"
#include "page.h"

/* One byte more than the library takes, so that of a file that is too long enough is read to have it refused. */
#define TEXT_ROOM (LIBRETTO_TEXT_MAX + 1)

#define PLACES_A_ROW 10

static uint8_t text[TEXT_ROOM], book[BOOK_ROOM];
static size_t text_len, book_len;

/* Whether the show file is a guest's. */
static int guest;

/* The day, and the cues that play on it, each with its index in the book and the place where it begins there. */
static uint32_t day;
static struct {
    libretto_cue cue;
    uint32_t index;
    size_t start;
} playing[LIBRETTO_CUES_MAX];
static size_t playing_len;

/* The text folded, and the phrases folded, each where it stands in the book. */
static uint8_t folded_text[LIBRETTO_TEXT_MAX], folded_book[BOOK_ROOM];

/* Lent to the library: it allocates nothing, and here is as much as any libretto and any book need. */
static uint16_t scratch[LIBRETTO_SCRATCH_RESOLVER];
static uint32_t entries[LIBRETTO_CUES_MAX * LIBRETTO_CUE_ENTRIES];
static uint32_t list[LIBRETTO_TEXT_MAX];

/* The sign of Unicode that a letter of the page is. */
static unsigned sign_of(uint8_t letter)
{
    for (size_t i = 0; i < PAGE_15_LETTERS; i++) {
        if (page_15_letters[i].letter == letter)
            return page_15_letters[i].sign;
    }
    return letter;
}

/* Prints a sign in UTF-8: two bytes, or three from 0x800 on. None is below 0x80 here, or above 0xFFFF. */
static void print_sign(FILE *out, unsigned sign)
{
    if (sign < 0x800)
        putc((int)(0xC0 | sign >> 6), out);
    else
        fprintf(out, "%c%c", (int)(0xE0 | sign >> 12), (int)(0x80 | (sign >> 6 & 0x3F)));
    putc((int)(0x80 | (sign & 0x3F)), out);
}

/* Prints letters of the page. */
static void print_letters(FILE *out, const uint8_t *letters, size_t len)
{
    for (size_t i = 0; i < len; i++) {
        uint8_t letter = letters[i];
        if (letter == '\n')
            fputs("\\n", out);
        else if (letter == '\\')
            fputs("\\\\", out);
        else if (letter < 0x20 || (letter >= 0x7F && letter < 0xA0))
            fprintf(out, "\\x%02x", letter);
        else if (letter < 0x80 || as_bytes)
            putc(letter, out);
        else
            print_sign(out, sign_of(letter));
    }
}

static void print_phrase(FILE *out, const libretto_cue *cue)
{
    putc('"', out);
    print_letters(out, book + cue->phrase_start, cue->phrase_len);
    putc('"', out);
}

/* Notes the playing cues of a book that the library has accepted as a whole, and folds their phrases. */
static void note_cues(void)
{
    libretto_cue cue;
    uint32_t index = 0;

    for (size_t place = 0; place < book_len; place = cue.end, index++) {
        cue = libretto_read_cue(LIBRETTO_OPERATOR, book, book_len, place);
        assert(cue.refusal == LIBRETTO_OK);
        if (cue.dated && (day < cue.first || day > cue.last))
            continue;
        libretto_fold_text(page, book + cue.phrase_start, cue.phrase_len, folded_book + cue.phrase_start, cue.phrase_len);
        playing[playing_len].cue = cue;
        playing[playing_len].index = index;
        playing[playing_len++].start = place;
    }
}

/* Where a cue that plays stands among those that do, by its index in the book. */
static size_t playing_at(uint32_t index)
{
    size_t k = 0;

    while (k < playing_len && playing[k].index != index)
        k++;
    assert(k < playing_len);
    return k;
}

/* Resolves the cues of a part of the book. */
static libretto_resolving resolve(size_t start, size_t end, uint32_t *into, size_t into_len)
{
    return libretto_resolve(guest ? LIBRETTO_GUEST : LIBRETTO_OPERATOR, day, page, book + start, end - start, text, text_len, folded_text,
                            sizeof folded_text, scratch, LIBRETTO_SCRATCH_RESOLVER, into, into_len);
}

/* Lists all places of a cue's folded phrase in the folded text, which the resolver has left in its copy; gives their number. */
static uint32_t list_refrain(const libretto_cue *cue)
{
    libretto_finding found = libretto_find(LIBRETTO_FJS, folded_book + cue->phrase_start, cue->phrase_len, folded_text, text_len, scratch,
                                           LIBRETTO_SCRATCH_RESOLVER, list, LIBRETTO_TEXT_MAX);

    /* The resolver has searched for this phrase in this text before, and its scratch is longer than any find needs. */
    assert(found.refusal == LIBRETTO_OK);
    return found.total;
}

static const char *words(uint32_t refusal)
{
    const char *wrong = book_words(refusal);

    switch (refusal) {
    case LIBRETTO_LONG_TEXT:
        return "the text has more than 32,768 bytes";
    case LIBRETTO_NO_OCCURRENCE:
        return "the cue's occurrence does not exist";
    case LIBRETTO_NOT_FORWARD:
        return "the cue does not stand behind the cue before it";
    default:
        return wrong != NULL ? wrong : "the lent memory is too short";
    }
}

/* Tells where a cue stands that does not stand behind the playing one before it, and where that one does, whose entries are written. By itself the cue
 * is resolved, since it has an occurrence. */
static void tell_not_forward(size_t k)
{
    const uint32_t *before = entries + (k - 1) * LIBRETTO_CUE_ENTRIES;
    uint32_t at[LIBRETTO_CUE_ENTRIES];
    libretto_resolving alone = resolve(playing[k].start, playing[k].cue.end, at, LIBRETTO_CUE_ENTRIES);

    assert(alone.refusal == LIBRETTO_OK);
    fprintf(stderr, " is at line %u, column %u, cue %u at line %u, column %u", (unsigned)at[1], (unsigned)at[2], (unsigned)playing[k - 1].index,
            (unsigned)before[1], (unsigned)before[2]);
}

/* Tells of a cue that has been looked for which occurrence that was, and how many there are, or where it stands. */
static void tell_occurrence(uint32_t refusal, uint32_t index)
{
    size_t k = playing_at(index);
    const libretto_cue *cue = &playing[k].cue;

    fprintf(stderr, ": ordinal %u of ", (unsigned)cue->ordinal);
    print_phrase(stderr, cue);
    if (refusal == LIBRETTO_NOT_FORWARD)
        tell_not_forward(k);
    else
        fprintf(stderr, ", total %u", (unsigned)list_refrain(cue));
}

/* Tells why the text, or a cue of the book, was refused. */
static int refuse(const char *text_path, const char *book_path, uint32_t refusal, uint32_t number)
{
    int looked_for = refusal == LIBRETTO_NO_OCCURRENCE || refusal == LIBRETTO_NOT_FORWARD;

    if (refusal == LIBRETTO_LONG_TEXT)
        fprintf(stderr, "%s: %s", text_path, words(refusal));
    else
        fprintf(stderr, "%s: %scue %u: %s", book_path, guest && looked_for ? "open " : "", (unsigned)number, words(refusal));
    if (looked_for && !guest)
        tell_occurrence(refusal, number);
    putc('\n', stderr);
    return REFUSED;
}

static void print_cues(void)
{
    printf("cue  place   line  column  title\n");
    for (size_t k = 0; k < playing_len; k++) {
        const uint32_t *entry = entries + k * LIBRETTO_CUE_ENTRIES;
        const libretto_cue *cue = &playing[k].cue;
        printf("%3u  %5u  %5u  %6u", (unsigned)playing[k].index, (unsigned)entry[0], (unsigned)entry[1], (unsigned)entry[2]);
        if (cue->title_len > 0)
            printf("  ");
        print_letters(stdout, book + cue->title_start, cue->title_len);
        printf("\n");
    }
}

/* Whether two cues have one folded phrase. */
static int same_phrase(const libretto_cue *one, const libretto_cue *other)
{
    return one->phrase_len == other->phrase_len && memcmp(folded_book + one->phrase_start, folded_book + other->phrase_start, one->phrase_len) == 0;
}

/* Whether no playing cue before this one has its folded phrase. */
static int is_first(size_t k)
{
    for (size_t i = 0; i < k; i++) {
        if (same_phrase(&playing[i].cue, &playing[k].cue))
            return 0;
    }
    return 1;
}

static void print_refrains(void)
{
    printf("total  phrase, and below it its places\n");
    for (size_t k = 0; k < playing_len; k++) {
        if (!is_first(k))
            continue;
        uint32_t total = list_refrain(&playing[k].cue);
        printf("%5u  ", (unsigned)total);
        print_phrase(stdout, &playing[k].cue);
        for (uint32_t i = 0; i < total; i++)
            printf("%s%5u", i % PLACES_A_ROW == 0 ? "\n       " : "  ", (unsigned)list[i]);
        printf("\n");
    }
}

/* Prints the entries of so many cues, which is all that a guest may have. */
static void print_places(size_t cues)
{
    printf("place   line  column\n");
    for (const uint32_t *entry = entries; entry < entries + cues * LIBRETTO_CUE_ENTRIES; entry += LIBRETTO_CUE_ENTRIES)
        printf("%5u  %5u  %6u\n", (unsigned)entry[0], (unsigned)entry[1], (unsigned)entry[2]);
}

/* Reads the book and resolves it; gives 0 and prints the show file, or tells the refusal. */
static int show(const char *text_path, const char *book_path)
{
    /* A guest may not read the book; the resolver reads it as a whole all the same. */
    if (!guest) {
        libretto_answer read = libretto_read_book(LIBRETTO_OPERATOR, book, book_len);
        if (read.refusal != LIBRETTO_OK)
            return refuse(text_path, book_path, read.refusal, read.number);
        note_cues();
    }
    libretto_resolving resolved = resolve(0, book_len, entries, sizeof entries / sizeof *entries);
    if (resolved.refusal != LIBRETTO_OK)
        return refuse(text_path, book_path, resolved.refusal, resolved.number);
    if (guest) {
        print_places(resolved.number);
    } else {
        print_cues();
        printf("\n");
        print_refrains();
    }
    return 0;
}

int main(int argc, char **argv)
{
    int next = read_options(argc, argv, &guest);
    uint32_t date[3];

    if (next == 0 || argc != next + 3 || !read_date((const uint8_t *)argv[next], strlen(argv[next]), date)) {
        fputs("usage: show [--page 1|15] [--bytes] [--guest] DAY TEXT BOOK\n", stderr);
        return FAILED;
    }
    libretto_answer told = libretto_day(date[0], date[1], date[2]);
    if (told.refusal != LIBRETTO_OK) {
        fprintf(stderr, "%s: the date is not in the calendar's 2000 to 2099\n", argv[next]);
        return REFUSED;
    }
    day = told.number;
    const char *text_path = argv[next + 1], *book_path = argv[next + 2];
    if (!read_file(text_path, text, TEXT_ROOM, &text_len) || !read_file(book_path, book, BOOK_ROOM, &book_len))
        return FAILED;

    int status = show(text_path, book_path);
    if (ferror(stdout) || fflush(stdout) != 0) {
        perror("standard output");
        return FAILED;
    }
    return status;
}
