/* Boyer-Moore: last letter to first, then the larger of two moves, DELTA1 of the text letter that differs and DELTA2 of its place in the phrase. */
#include "twins.h"

static inline size_t least(size_t a, size_t b)
{
    return a < b ? a : b;
}

/* m less the last position of each letter, counted from 1; m for an absent letter. */
static inline void make_delta1(const uint8_t *phrase, size_t m, uint16_t *restrict delta1)
{
    for (size_t letter = 0; letter < 256; letter++)
        delta1[letter] = (uint16_t)m;
    for (size_t k = 0; k < m; k++)
        delta1[phrase[k]] = (uint16_t)(m - 1 - k);
}

/* Source document 002, Algorithm 4, with Mehlhorn's correction: DELTA2(j) stands at j - 1, and f(j) is the next place after j whose letters, up to the
 * phrase's end, stand again from j on. */
static inline void make_delta2(const uint8_t *phrase, size_t m, uint16_t *restrict delta2)
{
    uint16_t f[1025];
    size_t t = m + 1;

    for (size_t j = 1; j <= m; j++)
        delta2[j - 1] = (uint16_t)(2 * m - j);
    for (size_t j = m; j > 0; j--) {
        f[j] = (uint16_t)t;
        while (t <= m && phrase[j - 1] != phrase[t - 1]) {
            delta2[t - 1] = (uint16_t)least(delta2[t - 1], m - j);
            t = f[t];
        }
        t--;
    }
    for (size_t k = 1; k <= t; k++)
        delta2[k - 1] = (uint16_t)least(delta2[k - 1], m + t - k);
    for (size_t tp = f[t]; t <= m; t++) {
        if (tp < t)
            tp = f[tp];
        delta2[t - 1] = (uint16_t)least(delta2[t - 1], tp - t + m);
    }
}

struct twin_finding twin_boyer_moore(const uint8_t *phrase, size_t m, const uint8_t *text, size_t n, uint16_t *restrict scratch,
                                     uint32_t *restrict list, size_t list_len)
{
    struct twin_finding found = {0, 0};
    uint16_t *delta1 = scratch, *delta2 = scratch + 256;
    const uint8_t last = phrase[m - 1];
    size_t start = 0;

    make_delta1(phrase, m, delta1);
    make_delta2(phrase, m, delta2);
    const size_t after = delta2[0] - (m - 1); /* m less the longest border */
    while (start + m <= n) {
        uint8_t end = text[start + m - 1];
        found.comparisons++;
        if (end != last) {
            start += delta1[end]; /* never less than DELTA2(m) */
            continue;
        }
        size_t k = m - 1;
        while (k > 0 && phrase[k - 1] == text[start + k - 1])
            k--;
        found.comparisons += (uint32_t)(m - 1 - k);
        if (k == 0) {
            twin_report(&found, list, list_len, start);
            start += after;
        } else {
            size_t by = delta1[text[start + k - 1]];
            found.comparisons++;
            if (by < delta2[k - 1])
                by = delta2[k - 1];
            start += by - (m - k);
        }
    }
    return found;
}
