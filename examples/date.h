/* Dates for the programs of this folder, written as year-month-day: 2026-03-14. */
#ifndef DATE_H
#define DATE_H

#include <stddef.h>
#include <stdint.h>

/* Reads digits up to the first other byte and moves past them; gives how many there are. Of a number above all years enough is kept to be above them. */
static inline size_t read_number(const uint8_t **bytes, const uint8_t *end, uint32_t *number)
{
    const uint8_t *start = *bytes;

    *number = 0;
    for (; *bytes < end && **bytes >= '0' && **bytes <= '9'; ++*bytes) {
        if (*number < 10000)
            *number = 10 * *number + (uint32_t)(**bytes - '0');
    }
    return (size_t)(*bytes - start);
}

/* Reads a date into year, month and day; gives 0 if the bytes are not three numbers with - between. Whether there is such a date is not tested. */
static inline int read_date(const uint8_t *bytes, size_t len, uint32_t date[3])
{
    const uint8_t *end = bytes + len;

    for (int i = 0; i < 3; i++) {
        if (i > 0 && (bytes == end || *bytes++ != '-'))
            return 0;
        if (read_number(&bytes, end, &date[i]) == 0)
            return 0;
    }
    return bytes == end;
}

#endif
