/* FJS with a list of its moves. */
#include "fjs.h"

struct twin_moves_finding twin_fjs_moves(const uint8_t *phrase, size_t m, const uint8_t *text, size_t n, uint16_t *restrict scratch,
                                         uint32_t *restrict list, size_t list_len, uint32_t *restrict moves, size_t moves_len)
{
    return twin_fjs_run(phrase, m, text, n, scratch, list, list_len, moves, moves_len, 1);
}
