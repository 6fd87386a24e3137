/* Horspool: last letter to first, then the move of the text letter under the phrase's end. */
#include "tables.h"
#include "twins.h"

struct twin_finding twin_horspool(const uint8_t *phrase, size_t m, const uint8_t *text, size_t n, uint16_t *restrict scratch,
                                  uint32_t *restrict list, size_t list_len)
{
    struct twin_finding found = {0, 0};
    const uint16_t *moves = scratch;
    const uint8_t last = phrase[m - 1];
    size_t start = 0;

    twin_horspool_table(phrase, m, scratch);
    while (start + m <= n) {
        uint8_t end = text[start + m - 1];
        found.comparisons++;
        if (end == last) {
            size_t k = m - 1;
            while (k > 0 && phrase[k - 1] == text[start + k - 1])
                k--;
            found.comparisons += (uint32_t)(m - 1 - k);
            if (k == 0)
                twin_report(&found, list, list_len, start);
            else
                found.comparisons++;
        }
        start += moves[end];
    }
    return found;
}
