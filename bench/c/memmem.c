/* What a C program without the library would call. */
#define _GNU_SOURCE
#include <string.h>

#include "twins.h"

uint32_t twin_memmem(const uint8_t *phrase, size_t m, const uint8_t *text, size_t n, uint32_t *restrict list, size_t list_len)
{
    struct twin_finding found = {0, 0};
    const uint8_t *from = text, *end = text + n;

    while ((from = memmem(from, (size_t)(end - from), phrase, m)) != NULL) {
        twin_report(&found, list, list_len, (size_t)(from - text));
        from++;
    }
    return found.total;
}
