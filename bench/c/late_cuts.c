/* A phrase's list after a late cut: the list is tested; places that stay are copied, those around the cut are found from start to start, and those
 * behind it are moved. Letters at a seam are joined in a buffer; new letters longer than the phrase are searched where they lie. */
#include "twins.h"

#include <string.h>

enum { BAD_LIST = 18, SIDE_MAX = 1023 };

struct answer {
    uint32_t *list;
    size_t len, total;
};

static void put(struct answer *answer, size_t place)
{
    if (answer->total < answer->len)
        answer->list[answer->total] = (uint32_t)place;
    answer->total++;
}

static void find(const uint8_t *phrase, size_t m, const uint8_t *part, size_t len, size_t place, struct answer *answer)
{
    const uint8_t first = phrase[0];

    for (size_t start = 0; start + m <= len; start++) {
        if (part[start] != first)
            continue;
        size_t k = 1;
        while (k < m && phrase[k] == part[start + k])
            k++;
        if (k == m)
            put(answer, place + start);
    }
}

static void find_around(const uint8_t *phrase, size_t m, const uint8_t *text, size_t n, size_t start, size_t end, const uint8_t *letters, size_t len,
                        struct answer *answer)
{
    uint8_t joined[3 * SIDE_MAX];
    size_t side = m - 1;
    size_t before = side < start ? side : start;
    size_t after = side < n - end ? side : n - end;
    size_t head = side < len ? side : len;

    memcpy(joined, text + start - before, before);
    memcpy(joined + before, letters, head);
    if (len <= side) {
        memcpy(joined + before + len, text + end, after);
        find(phrase, m, joined, before + len + after, start - before, answer);
        return;
    }
    find(phrase, m, joined, before + head, start - before, answer);
    find(phrase, m, letters, len, start, answer);
    memcpy(joined, letters + len - side, side);
    memcpy(joined + side, text + end, after);
    find(phrase, m, joined, side + after, start + len - side, answer);
}

struct twin_answer twin_relist(const uint8_t *phrase, size_t m, const uint8_t *text, size_t n, const uint32_t *list, size_t list_len, size_t start,
                               size_t end, const uint8_t *letters, size_t letters_len, uint32_t *restrict lent, size_t lent_len)
{
    struct answer answer = {lent, lent_len, 0};
    int32_t change = (int32_t)letters_len - (int32_t)(end - start);
    size_t low = 0, i = 0;

    for (size_t k = 0; k < list_len; k++) {
        if (list[k] < low || n < list[k] + m)
            return (struct twin_answer){BAD_LIST, 0};
        low = (size_t)list[k] + 1;
    }
    for (; i < list_len && list[i] + m <= start; i++)
        put(&answer, list[i]);
    find_around(phrase, m, text, n, start, end, letters, letters_len, &answer);
    for (; i < list_len; i++)
        if (list[i] >= end)
            put(&answer, (size_t)((int32_t)list[i] + change));
    return (struct twin_answer){0, (uint32_t)answer.total};
}
