/* Knuth, Morris and Pratt: left to right, never going back in the text. */
#include "tables.h"
#include "twins.h"

struct twin_finding twin_kmp(const uint8_t *phrase, size_t m, const uint8_t *text, size_t n, uint16_t *restrict scratch, uint32_t *restrict list,
                             size_t list_len)
{
    struct twin_finding found = {0, 0};
    const uint16_t *b = scratch;
    size_t i = 0, j = 0; /* phrase[j] lies over text[i] */

    twin_kmp_table(phrase, m, scratch);
    while (i + m <= n + j) {
        found.comparisons++;
        if (phrase[j] == text[i]) {
            i++;
            j++;
            if (j == m) {
                twin_report(&found, list, list_len, i - m);
                j = b[m] - 1u;
            }
        } else if (b[j] == 0) {
            i++;
            j = 0;
        } else {
            j = b[j] - 1u;
        }
    }
    return found;
}
