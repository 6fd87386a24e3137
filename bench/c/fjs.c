/* Franek, Jennings and Smyth: Sunday's moves while nothing is matched, those of KMP otherwise. */
#include "fjs.h"

struct twin_finding twin_fjs(const uint8_t *phrase, size_t m, const uint8_t *text, size_t n, uint16_t *restrict scratch, uint32_t *restrict list,
                             size_t list_len)
{
    return twin_fjs_run(phrase, m, text, n, scratch, list, list_len, NULL, 0, 0).found;
}
