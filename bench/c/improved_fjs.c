/* Franek, Jennings and Smyth as improved by Kobayashi and others: the letter with the widest gap first while nothing is matched, and a wider move
 * after it. */
#include "tables.h"
#include "twins.h"

/* The widest distance of a letter from the same letter before it, or from in front of the first, and the last letter that has it, from 1. */
struct gap {
    size_t width, letter;
};

static struct gap widest_gap(const uint8_t *phrase, size_t m)
{
    struct gap widest = {0, 1};
    uint16_t before[256] = {0}; /* the last letter of each kind so far, from 1 */

    for (size_t j = 1; j <= m; j++) {
        size_t width = j - before[phrase[j - 1]];
        if (widest.width <= width) {
            widest.width = width;
            widest.letter = j;
        }
        before[phrase[j - 1]] = (uint16_t)j;
    }
    return widest;
}

/* How far the phrase moves where letter j is the first unequal one, j from 1 to m + 1, at j - 1: by the gap where that is no shorter than KMP's
 * move and passes every letter that is equal. */
static void shift_table(const uint16_t *b, size_t m, size_t width, uint16_t *restrict shifts)
{
    for (size_t j = 1; j <= m + 1; j++) {
        size_t shift = j - b[j - 1];
        shifts[j - 1] = (uint16_t)(width >= shift && width >= j - 1 ? width : shift);
    }
}

struct twin_finding twin_improved_fjs(const uint8_t *phrase, size_t m, const uint8_t *text, size_t n, uint16_t *restrict scratch,
                                      uint32_t *restrict list, size_t list_len)
{
    struct twin_finding found = {0, 0};
    const uint16_t *moves = scratch, *b = scratch + 256, *shifts = scratch + 256 + m + 1;

    twin_sunday_table(phrase, m, scratch);
    twin_kmp_table(phrase, m, scratch + 256);
    const struct gap widest = widest_gap(phrase, m);
    shift_table(b, m, widest.width, scratch + 256 + m + 1);

    const size_t place = widest.letter - 1;
    const uint8_t letter = phrase[place];
    size_t start = 0; /* the phrase's first letter lies over text[start] */
    while (start + m <= n) {
        found.comparisons++;
        if (text[start + place] != letter) {
            if (start + m == n)
                break;
            start += moves[text[start + m]];
            continue;
        }

        /* That letter is equal: all letters from the first on. */
        size_t j = 0;
        while (j < m && phrase[j] == text[start + j])
            j++;
        found.comparisons += (uint32_t)j;
        if (j < m)
            found.comparisons++;
        else
            twin_report(&found, list, list_len, start);
        start += shifts[j];
        size_t carried = j > shifts[j] ? j - shifts[j] : 0;

        /* A part match is carried: on with KMP's moves until nothing is. */
        while (carried > 0 && start + m <= n) {
            j = carried;
            while (j < m && phrase[j] == text[start + j])
                j++;
            found.comparisons += (uint32_t)(j - carried);
            if (j < m)
                found.comparisons++;
            else
                twin_report(&found, list, list_len, start);
            start += j + 1 - b[j];
            carried = b[j] > 1 ? b[j] - 1u : 0;
        }
    }
    return found;
}
