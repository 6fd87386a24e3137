/* Each start in turn, left to right, up to the first unequal pair. */
#include "twins.h"

struct twin_finding twin_naive(const uint8_t *phrase, size_t m, const uint8_t *text, size_t n, uint16_t *restrict scratch, uint32_t *restrict list,
                               size_t list_len)
{
    struct twin_finding found = {0, 0};
    const uint8_t first = phrase[0];

    (void)scratch;
    for (size_t start = 0; start + m <= n; start++) {
        found.comparisons++;
        if (text[start] != first)
            continue;
        size_t k = 1;
        while (k < m && phrase[k] == text[start + k])
            k++;
        found.comparisons += (uint32_t)(k - 1);
        if (k == m)
            twin_report(&found, list, list_len, start);
        else
            found.comparisons++;
    }
    return found;
}
