/* Folding by each page: constant tables, which the compiler makes from the rules, and page 1's rule for loops that take many letters at a time. */
#ifndef TWIN_FOLD_H
#define TWIN_FOLD_H

#include <stdint.h>

/* What a letter folds to by page 1: 32 more for the capital letters, and itself for any other. Page 15 has four pairs besides, the second for the
 * first. */
#define TWIN_FOLD_1(c) (((c) >= 0x41 && (c) <= 0x5A) || ((c) >= 0xC0 && (c) <= 0xDE && (c) != 0xD7) ? (c) + 32 : (c))
#define TWIN_FOLD_15(c) ((c) == 0xA6 ? 0xA8 : (c) == 0xB4 ? 0xB8 : (c) == 0xBC ? 0xBD : (c) == 0xBE ? 0xFF : TWIN_FOLD_1(c))
#define TWIN_FOUR(f, c) f(c), f((c) + 1), f((c) + 2), f((c) + 3)
#define TWIN_SIXTEEN(f, c) TWIN_FOUR(f, c), TWIN_FOUR(f, (c) + 4), TWIN_FOUR(f, (c) + 8), TWIN_FOUR(f, (c) + 12)
#define TWIN_SIXTY_FOUR(f, c) TWIN_SIXTEEN(f, c), TWIN_SIXTEEN(f, (c) + 16), TWIN_SIXTEEN(f, (c) + 32), TWIN_SIXTEEN(f, (c) + 48)
#define TWIN_PAGE(f) {TWIN_SIXTY_FOUR(f, 0), TWIN_SIXTY_FOUR(f, 64), TWIN_SIXTY_FOUR(f, 128), TWIN_SIXTY_FOUR(f, 192)}

static const uint8_t twin_page_1[256] = TWIN_PAGE(TWIN_FOLD_1), twin_page_15[256] = TWIN_PAGE(TWIN_FOLD_15);

#endif
