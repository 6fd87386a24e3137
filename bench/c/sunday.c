/* Sunday: left to right, then the move of the text letter after the window. */
#include "tables.h"
#include "twins.h"

struct twin_finding twin_sunday(const uint8_t *phrase, size_t m, const uint8_t *text, size_t n, uint16_t *restrict scratch, uint32_t *restrict list,
                                size_t list_len)
{
    struct twin_finding found = {0, 0};
    const uint16_t *moves = scratch;
    const uint8_t first = phrase[0];
    size_t start = 0;

    twin_sunday_table(phrase, m, scratch);
    while (start + m <= n) {
        found.comparisons++;
        if (text[start] == first) {
            size_t k = 1;
            while (k < m && phrase[k] == text[start + k])
                k++;
            found.comparisons += (uint32_t)(k - 1);
            if (k == m)
                twin_report(&found, list, list_len, start);
            else
                found.comparisons++;
        }
        if (start + m == n)
            break;
        start += moves[text[start + m]];
    }
    return found;
}
