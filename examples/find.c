/* Finds a refrain in a few lines of verse by every engine, and prints each engine's line: its name, the total, the comparisons and the places; then the
 * total of moves by FJS, and the first of them; then the places after a cut, made from those before it. */
#include <stdio.h>
#include <string.h>

#include "libretto.h"

static uint16_t scratch[LIBRETTO_SCRATCH_MAX];

/* The first six moves of FJS's window: the old start, the new start and the rule. The total is full although the list is shorter. */
static void print_moves(const char *phrase, const char *text)
{
    static const char *const rules[] = {"", "Sunday", "KMP"};
    uint32_t list[8], moves[6 * LIBRETTO_MOVE_ENTRIES];
    size_t room = sizeof moves / sizeof *moves;
    libretto_moves_finding found = libretto_find_moves((const uint8_t *)phrase, strlen(phrase), (const uint8_t *)text, strlen(text),
                                                       scratch, LIBRETTO_SCRATCH_MAX, list, sizeof list / sizeof *list, moves, room);

    printf("moves %u", (unsigned)found.moves);
    for (size_t i = 0; i < found.moves * LIBRETTO_MOVE_ENTRIES && i < room; i += LIBRETTO_MOVE_ENTRIES)
        printf(" %u-%u %s", (unsigned)moves[i], (unsigned)moves[i + 1], rules[moves[i + 2]]);
    printf("\n");
}

/* The places after a late cut: the letters from start on, up to the one before end, become others. The text itself stays as it is. */
static void print_cut(const char *phrase, const char *text, const uint32_t *list, size_t list_len, size_t start, size_t end, const char *letters)
{
    uint32_t answer[8];
    libretto_answer cut = libretto_relist((const uint8_t *)phrase, strlen(phrase), (const uint8_t *)text, strlen(text), list, list_len,
                                          start, end, (const uint8_t *)letters, strlen(letters), answer, sizeof answer / sizeof *answer);

    printf("cut %u", (unsigned)cut.number);
    for (uint32_t i = 0; i < cut.number && i < sizeof answer / sizeof *answer; i++)
        printf(" %u", (unsigned)answer[i]);
    printf("\n");
}

int main(void)
{
    static const char *const names[] = {"naive", "kmp", "horspool", "sunday", "fjs", "double", "bm", "improved"};
    const char *phrase = "lala";
    const char *text = "la lala, tralalala,\nla la lala";
    uint32_t list[8];

    for (uint32_t method = LIBRETTO_NAIVE; method <= LIBRETTO_IMPROVED_FJS; method++) {
        libretto_finding found = libretto_find(method, (const uint8_t *)phrase, strlen(phrase), (const uint8_t *)text, strlen(text),
                                               scratch, LIBRETTO_SCRATCH_MAX, list, sizeof list / sizeof *list);
        if (found.refusal != LIBRETTO_OK) {
            printf("refused %u\n", (unsigned)found.refusal);
            return 1;
        }
        printf("%s %u %u", names[method], (unsigned)found.total, (unsigned)found.comparisons);
        for (uint32_t i = 0; i < found.total && i < sizeof list / sizeof *list; i++)
            printf(" %u", (unsigned)list[i]);
        printf("\n");
    }

    print_moves(phrase, text);

    /* "tralalala" becomes "la": the list that the last engine left is whole, so the cut is made with it. */
    print_cut(phrase, text, list, 4, 9, 18, "la");

    /* A scratch one entry short is refused, and nothing is written. */
    libretto_finding refused = libretto_find(LIBRETTO_FJS, (const uint8_t *)phrase, 4, (const uint8_t *)text, strlen(text),
                                             scratch, LIBRETTO_SCRATCH_FJS(4) - 1, list, 8);
    printf("refused %u\n", (unsigned)refused.refusal);
    return refused.refusal == LIBRETTO_SHORT_SCRATCH ? 0 : 1;
}
