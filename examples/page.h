/* Pages for the programs of this folder: the options that choose one, and the letters of ISO 8859-15 that are other signs in ISO 8859-1. */
#ifndef PAGE_H
#define PAGE_H

#include <stddef.h>
#include <stdint.h>
#include <string.h>

#include "libretto.h"

/* The page of text and book, and whether letters are read and printed as the bytes that they are on it, instead of in UTF-8. */
static uint32_t page = LIBRETTO_PAGE_1;
static int as_bytes;

/* The eight letters of page 15 whose signs in Unicode have other numbers. The signs of these numbers are not on page 15. */
static const struct {
    uint8_t letter;
    uint16_t sign;
} page_15_letters[] = {
    {0xA4, 0x20AC}, {0xA6, 0x0160}, {0xA8, 0x0161}, {0xB4, 0x017D}, {0xB8, 0x017E}, {0xBC, 0x0152}, {0xBD, 0x0153}, {0xBE, 0x0178},
};

/* How many of them there are by the page that was chosen: all or none. */
#define PAGE_15_LETTERS (page == LIBRETTO_PAGE_15 ? sizeof page_15_letters / sizeof *page_15_letters : 0)

/* The page that an argument names, or 0. */
static inline uint32_t named_page(const char *argument)
{
    if (strcmp(argument, "1") == 0)
        return LIBRETTO_PAGE_1;
    return strcmp(argument, "15") == 0 ? LIBRETTO_PAGE_15 : 0;
}

/* Reads the options --page 1|15 and --bytes at the front of the arguments, and --guest for a program that has it and notes it, each at most once; gives
 * the index of the argument after them, or 0 if an option is wrong. */
static inline int read_options(int argc, char **argv, int *guest)
{
    int next = 1, paged = 0;

    while (next < argc && strncmp(argv[next], "--", 2) == 0) {
        const char *option = argv[next++];
        if (strcmp(option, "--bytes") == 0 && !as_bytes) {
            as_bytes = 1;
        } else if (strcmp(option, "--guest") == 0 && guest != NULL && !*guest) {
            *guest = 1;
        } else if (strcmp(option, "--page") == 0 && !paged && next < argc) {
            paged = 1;
            page = named_page(argv[next++]);
        } else {
            return 0;
        }
    }
    return page == 0 ? 0 : next;
}

#endif
