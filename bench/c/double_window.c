/* The double window: the letter under the window's end gives the move, and where the phrase lacks it, the letter m places on adds to it. */
#include "tables.h"
#include "twins.h"

/* Compares the letters before the last one, from right to left. */
static inline void compare(const uint8_t *phrase, size_t m, const uint8_t *text, size_t start, struct twin_finding *found, uint32_t *restrict list,
                           size_t list_len)
{
    size_t k = m - 1;

    while (k > 0 && phrase[k - 1] == text[start + k - 1])
        k--;
    found->comparisons += (uint32_t)(m - 1 - k);
    if (k == 0)
        twin_report(found, list, list_len, start);
    else
        found->comparisons++;
}

struct twin_finding twin_double_window(const uint8_t *phrase, size_t m, const uint8_t *text, size_t n, uint16_t *restrict scratch,
                                       uint32_t *restrict list, size_t list_len)
{
    struct twin_finding found = {0, 0};
    const uint16_t *moves = scratch;
    const uint8_t last = phrase[m - 1];
    size_t end = m - 1; /* the phrase's last letter lies over text[end] */

    twin_horspool_table(phrase, m, scratch);
    const size_t after = moves[last]; /* the move after comparing, at hand so that it waits for no load */
    while (end + m < n) {
        uint8_t u = text[end];
        if (u == last) {
            compare(phrase, m, text, end + 1 - m, &found, list, list_len);
            end += after;
        } else if (moves[u] < m) {
            end += moves[u];
        } else {
            /* The phrase lacks u: m, and more by v. Horspool's entries pass over the phrase's last place, and a v that stands there adds 0. */
            uint8_t v = text[end + m];
            end += v == last ? m : m + moves[v];
        }
    }

    /* The second letter lies past the text, so the first one gives the move alone. */
    while (end < n) {
        uint8_t u = text[end];
        if (u == last)
            compare(phrase, m, text, end + 1 - m, &found, list, list_len);
        end += moves[u];
    }
    return found;
}
