/* Reading a cue book by itself. */
#include "cue_book.h"

struct twin_answer twin_read_book(const uint8_t *book, size_t book_len)
{
    return twin_read_cues(book, book_len);
}
