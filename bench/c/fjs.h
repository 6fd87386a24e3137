/* The steps of FJS, with its moves noted or not. `noting` is a constant at each call, so that a find without moves has nothing of them. */
#ifndef TWIN_FJS_H
#define TWIN_FJS_H

#include "tables.h"
#include "twins.h"

/* Notes a move if there is room for it, and counts it: the phrase's last letter lay over text[end] and now lies over text[next]. */
static inline void twin_note(struct twin_moves_finding *moved, uint32_t *restrict moves, size_t moves_len, size_t m, size_t end, size_t next,
                             uint32_t rule)
{
    size_t at = (size_t)3 * moved->moves;

    if (at + 3 <= moves_len) {
        moves[at] = (uint32_t)(end + 1 - m);
        moves[at + 1] = (uint32_t)(next + 1 - m);
        moves[at + 2] = rule;
    }
    moved->moves++;
}

static inline struct twin_moves_finding twin_fjs_run(const uint8_t *phrase, size_t m, const uint8_t *text, size_t n, uint16_t *restrict scratch,
                                                     uint32_t *restrict list, size_t list_len, uint32_t *restrict moves, size_t moves_len,
                                                     const int noting)
{
    struct twin_moves_finding moved = {{0, 0}, 0};
    struct twin_finding found = {0, 0};
    const uint16_t *sunday = scratch, *b = scratch + 256;
    const uint8_t last = phrase[m - 1];
    size_t end = m - 1; /* the phrase's last letter lies over text[end] */

    twin_sunday_table(phrase, m, scratch);
    twin_kmp_table(phrase, m, scratch + 256);
    while (end < n) {
        found.comparisons++;
        if (text[end] != last) {
            if (end + 1 == n)
                break;
            size_t next = end + sunday[text[end + 1]];
            if (noting)
                twin_note(&moved, moves, moves_len, m, end, next, 1);
            end = next;
            continue;
        }

        /* The last letter is equal: the others from the first on. */
        size_t i = end + 1 - m, j = 0; /* phrase[j] lies over text[i] */
        while (j < m - 1 && phrase[j] == text[i]) {
            i++;
            j++;
        }
        found.comparisons += (uint32_t)j;
        if (j < m - 1) {
            found.comparisons++;
        } else {
            i++;
            j++;
            twin_report(&found, list, list_len, i - m);
        }
        size_t next = b[j]; /* the letter to go on with, from 1; at 0 the next window starts behind i */
        if (noting)
            twin_note(&moved, moves, moves_len, m, end, i + m - next, 2);
        end = i + m - next;

        /* A part match is carried: on with KMP's moves until nothing is. */
        while (next > 1 && end < n) {
            size_t carried = next - 1;
            j = carried;
            while (j < m && phrase[j] == text[i]) {
                i++;
                j++;
            }
            found.comparisons += (uint32_t)(j - carried);
            if (j < m)
                found.comparisons++;
            else
                twin_report(&found, list, list_len, i - m);
            next = b[j];
            if (noting)
                twin_note(&moved, moves, moves_len, m, end, i + m - next, 2);
            end = i + m - next;
        }
    }
    moved.found = found;
    return moved;
}

#endif
