/* Folding by page 15: each letter is looked up in a constant table. */
#include "fold.h"
#include "twins.h"

void twin_fold(const uint8_t *restrict text, size_t n, uint8_t *restrict target)
{
    for (size_t i = 0; i < n; i++)
        target[i] = twin_page_15[text[i]];
}
