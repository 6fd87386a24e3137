/* The tables that more than one engine makes. */
#ifndef TWIN_TABLES_H
#define TWIN_TABLES_H

#include <stddef.h>
#include <stdint.h>

/* b[1] to b[m + 1], at 0 to m. Letters count from 1 in the entries, and 0 stands for none. */
static inline void twin_kmp_table(const uint8_t *phrase, size_t m, uint16_t *restrict b)
{
    size_t border = 0; /* the letter after the longest border of the letters before j, or 0 in front of the first */

    b[0] = 0;
    for (size_t j = 1; j < m; j++) {
        while (border > 0 && phrase[border - 1] != phrase[j - 1])
            border = b[border - 1];
        border++;
        b[j] = phrase[border - 1] == phrase[j] ? b[border - 1] : (uint16_t)border;
    }
    while (border > 0 && phrase[border - 1] != phrase[m - 1])
        border = b[border - 1];
    b[m] = (uint16_t)(border + 1);
}

/* How far the letter after the window moves it: m less the letter's last place, from 0; m + 1 for an absent letter. */
static inline void twin_sunday_table(const uint8_t *phrase, size_t m, uint16_t *restrict moves)
{
    for (size_t letter = 0; letter < 256; letter++)
        moves[letter] = (uint16_t)(m + 1);
    for (size_t k = 0; k < m; k++)
        moves[phrase[k]] = (uint16_t)(m - k);
}

/* How far the letter under the window's end moves it: by its last place among the first m - 1 letters. */
static inline void twin_horspool_table(const uint8_t *phrase, size_t m, uint16_t *restrict moves)
{
    for (size_t letter = 0; letter < 256; letter++)
        moves[letter] = (uint16_t)m;
    for (size_t k = 0; k + 1 < m; k++)
        moves[phrase[k]] = (uint16_t)(m - 1 - k);
}

#endif
