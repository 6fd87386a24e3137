/* Resolving the cues of a book that a role has on a day, in groups of as many one after another as fit into 64 cues and 4,096 phrase bytes: one automaton over
 * a group's folded phrases reads each letter of the folded text once.
 *
 * The automaton lies in the scratch. First come its states, eight entries each, as struct state has them; then a class for each of the 256 letters,
 * 0 for the letters that no phrase of the group has; and then, for as many of the first states as there is room for, a row with the next state for
 * each class. The scratch is 0 throughout between two groups, and the making of an automaton relies on it. */
#include "cue_book.h"
#include "fold.h"
#include "twins.h"

#include <string.h>

enum { GROUP_CUES = 64, GROUP_BYTES = 4096, STATE_ENTRIES = 8, CLASSES = STATE_ENTRIES * (GROUP_BYTES + 1), ROWS = CLASSES + 256 };
enum { SHORT_ENTRIES = 11, NO_OCCURRENCE = 12, NOT_FORWARD = 15 };

/* The place of a cue that has not been found. */
#define NOWHERE UINT32_MAX

/* A state is a front of some phrases: its last letter; the child made last and the one that its parent had before it, 0 for none; the longest other
 * state that it ends with; and the phrases that end in it, as the bits of a 64-bit number. */
struct state {
    uint16_t letter, child, sibling, fail, ended[4];
};

_Static_assert(sizeof(struct state) == STATE_ENTRIES * sizeof(uint16_t), "a state has its entries and nothing between them");

struct automaton {
    struct state *states;
    uint16_t *classes, *rows;
    size_t states_len, width, rows_len; /* width is the entries of a row; the states below rows_len have one */
};

/* The cues of a group, each with the number by which it is named, its phrase and its length, the occurrences still to come, and its place. */
struct group {
    size_t len;
    const uint8_t *phrases[GROUP_CUES];
    uint32_t numbers[GROUP_CUES], lengths[GROUP_CUES], left[GROUP_CUES], places[GROUP_CUES];
};

/* How far a book has been taken: the place and the number of the next cue. */
struct taken {
    size_t place;
    uint32_t number;
};

/* A place with its line, and where that line starts; and the least place that the next cue may have, since the cues run forward. */
struct position {
    size_t place, start, least;
    uint32_t line;
};

static inline uint64_t ended(const struct state *state)
{
    uint64_t bits;

    memcpy(&bits, state->ended, sizeof bits);
    return bits;
}

static inline void join(struct state *state, uint64_t bits)
{
    bits |= ended(state);
    memcpy(state->ended, &bits, sizeof bits);
}

/* Takes the resolved cues of the next group from a book that has been tested, and passes over the others up to the first resolved one of the group
 * behind. */
static void take_group(struct group *group, uint32_t role, uint32_t day, const uint8_t *book, size_t book_len, struct taken *taken)
{
    size_t bytes = 0;

    group->len = 0;
    while (taken->place < book_len) {
        const uint8_t *phrase = book + taken->place + 3;
        size_t length = twin_number(phrase - 2), k = group->len;
        const uint8_t *ordinal = phrase + length + 3, *title = ordinal + 5;
        size_t end = (size_t)(title - book) + twin_number(title - 2);
        struct twin_choice choice = twin_choose(book, book_len, &end, role, day);
        if (choice.resolved) {
            bytes += length;
            if (k == GROUP_CUES || bytes > GROUP_BYTES)
                return;
            group->numbers[k] = taken->number;
            group->phrases[k] = phrase;
            group->lengths[k] = (uint32_t)length;
            group->left[k] = twin_number(ordinal);
            group->places[k] = NOWHERE;
            group->len++;
        }
        taken->place = end;
        taken->number += choice.counted;
    }
}

/* The number of cues that are resolved, in a book that has been tested. */
static uint32_t count_resolved(uint32_t role, uint32_t day, const uint8_t *book, size_t book_len)
{
    uint32_t resolved = 0;

    for (size_t place = 0; place < book_len;) {
        for (int field = 0; field < 3; field++)
            place += 3 + twin_number(book + place + 1);
        resolved += twin_choose(book, book_len, &place, role, day).resolved;
    }
    return resolved;
}

/* The child of a state by this letter; it is made if there is none, and holds its parent as its fail link until that is known. */
static inline uint16_t grow_child(struct automaton *automaton, uint16_t parent, uint8_t letter)
{
    struct state *states = automaton->states;

    for (uint16_t child = states[parent].child; child != 0; child = states[child].sibling)
        if (states[child].letter == letter)
            return child;
    uint16_t child = (uint16_t)automaton->states_len++;
    states[child].letter = letter;
    states[child].sibling = states[parent].child;
    states[child].fail = parent;
    states[parent].child = child;
    if (automaton->classes[letter] == 0)
        automaton->classes[letter] = (uint16_t)automaton->width++;
    return child;
}

/* Grows the states level by level, so that they are numbered by their depth and each one's fail link is a smaller number than its own. */
static void grow(struct automaton *automaton, const struct group *group, const uint8_t *page)
{
    uint16_t reached[GROUP_CUES] = {0};
    uint8_t longer[GROUP_CUES]; /* the phrases that go on at this depth */
    size_t count = group->len;

    for (size_t k = 0; k < count; k++)
        longer[k] = (uint8_t)k;
    automaton->states_len = 1;
    automaton->width = 1;
    for (size_t depth = 0; count > 0; depth++) {
        size_t kept = 0;
        for (size_t i = 0; i < count; i++) {
            uint8_t k = longer[i];
            reached[k] = grow_child(automaton, reached[k], page[group->phrases[k][depth]]);
            if (depth + 1 == group->lengths[k])
                join(&automaton->states[reached[k]], (uint64_t)1 << k);
            else
                longer[kept++] = k;
        }
        count = kept;
    }
}

/* The next state of one without a row: its child by the letter, or where its fail link goes; the first state always has a row. */
static inline size_t step_by_children(const struct automaton *automaton, size_t state, uint8_t letter)
{
    const struct state *states = automaton->states;

    do {
        for (size_t child = states[state].child; child != 0; child = states[child].sibling)
            if (states[child].letter == letter)
                return child;
        state = states[state].fail;
    } while (state >= automaton->rows_len);
    return automaton->rows[state * automaton->width + automaton->classes[letter]];
}

/* The next state. */
static inline size_t step(const struct automaton *automaton, size_t state, uint8_t letter)
{
    if (__builtin_expect(state < automaton->rows_len, 1))
        return automaton->rows[state * automaton->width + automaton->classes[letter]];
    return step_by_children(automaton, state, letter);
}

static inline void lay_children(struct automaton *automaton, size_t state)
{
    uint16_t *row = automaton->rows + state * automaton->width;

    for (uint16_t child = automaton->states[state].child; child != 0; child = automaton->states[child].sibling)
        row[automaton->classes[automaton->states[child].letter]] = child;
}

/* Finds the fail links by rising states, joins the phrases that end there, and fills the rows: a state goes where its fail link goes, except by the
 * letters of its children. */
static void link_states(struct automaton *automaton, size_t rows_room)
{
    size_t width = automaton->width, most = rows_room / width;

    automaton->rows_len = most < automaton->states_len ? most : automaton->states_len;
    lay_children(automaton, 0);
    for (size_t s = 1; s < automaton->states_len; s++) {
        struct state *state = &automaton->states[s];
        size_t parent = state->fail, fail = 0;
        if (parent != 0)
            fail = step(automaton, automaton->states[parent].fail, (uint8_t)state->letter);
        state->fail = (uint16_t)fail;
        join(state, ended(&automaton->states[fail]));
        if (s < automaton->rows_len) {
            memcpy(automaton->rows + s * width, automaton->rows + fail * width, width * sizeof(uint16_t));
            lay_children(automaton, s);
        }
    }
}

/* Takes one step a letter, and notes of each cue where its occurrence starts. */
static void walk(const struct automaton *automaton, struct group *group, const uint8_t *text, size_t n)
{
    const struct automaton held = *automaton; /* nothing points to the copy, so it stays in registers */
    size_t state = 0;

    for (size_t i = 0; i < n; i++) {
        state = step(&held, state, text[i]);
        uint64_t bits = ended(&held.states[state]);
        while (__builtin_expect(bits != 0, 0)) {
            int k = __builtin_ctzll(bits);
            bits &= bits - 1;
            if (--group->left[k] == 0)
                group->places[k] = (uint32_t)(i + 1) - group->lengths[k];
        }
    }
}

/* Finds the places of a group's cues in the folded text, and leaves the scratch 0 throughout. */
static void find_group(struct group *group, const uint8_t *page, const uint8_t *text, size_t n, uint16_t *scratch, size_t scratch_len)
{
    struct automaton automaton = {(struct state *)scratch, scratch + CLASSES, scratch + ROWS, 0, 0, 0};

    grow(&automaton, group, page);
    link_states(&automaton, scratch_len - ROWS);
    walk(&automaton, group, text, n);
    memset(scratch, 0, scratch_len * sizeof *scratch);
}

/* Whether a line ends at this byte; 13 does not where 10 follows, since the pair ends at the 10. */
static inline int ends_line(const uint8_t *byte)
{
    return (byte[0] == 10) | ((byte[0] == 13) & (byte[1] != 10));
}

/* How many lines end from one place on and before another. A phrase starts at the later place, so the byte behind each one before it exists. */
static inline uint32_t count_endings(const uint8_t *text, size_t from, size_t to)
{
    uint32_t endings = 0;

    for (size_t i = from; i < to; i++)
        endings += (uint32_t)ends_line(text + i);
    return endings;
}

/* Moves on to a place by the endings between it and the last one; without any it is in the same line, and otherwise behind the last of them. */
static void move_on(struct position *at, const uint8_t *text, size_t place)
{
    uint32_t endings = count_endings(text, at->place, place);

    at->place = place;
    at->least = place + 1;
    if (endings == 0)
        return;
    at->line += endings;
    at->start = place;
    while (!ends_line(text + at->start - 1))
        at->start--;
}

/* Writes the entries of a group's cues up to the first that has no place, or one that is not above the last one's: 0 and how many were written, or the
 * refusal and the cue's number. */
static struct twin_answer write_entries(const struct group *group, const uint8_t *text, struct position *at, uint32_t *restrict entries)
{
    for (uint32_t k = 0; k < group->len; k++) {
        uint32_t place = group->places[k];
        if (place == NOWHERE)
            return (struct twin_answer){NO_OCCURRENCE, group->numbers[k]};
        if (place < at->least)
            return (struct twin_answer){NOT_FORWARD, group->numbers[k]};
        move_on(at, text, place);
        entries[3 * k] = place;
        entries[3 * k + 1] = at->line;
        entries[3 * k + 2] = (uint32_t)(place + 1 - at->start);
    }
    return (struct twin_answer){0, (uint32_t)group->len};
}

static void fold_text(uint32_t page, const uint8_t *restrict text, size_t n, uint8_t *restrict copy)
{
    if (page == 1)
        for (size_t i = 0; i < n; i++)
            copy[i] = (uint8_t)TWIN_FOLD_1(text[i]);
    else
        for (size_t i = 0; i < n; i++)
            copy[i] = twin_page_15[text[i]];
}

struct twin_resolving twin_resolve(uint32_t role, uint32_t day, uint32_t page, const uint8_t *book, size_t book_len, const uint8_t *text, size_t n,
                                   uint8_t *restrict copy, uint16_t *restrict scratch, size_t scratch_len, uint32_t *restrict entries,
                                   size_t entries_len)
{
    struct twin_answer read = twin_read_cues(book, book_len);
    struct position at = {0, 0, 0, 1};
    struct taken taken = {0, 0};
    struct group group;
    uint32_t resolved = 0, reads = 0;

    if (read.refusal != 0)
        return (struct twin_resolving){read.refusal, read.number, 0};
    uint32_t all = count_resolved(role, day, book, book_len);
    if (entries_len < (size_t)3 * all)
        return (struct twin_resolving){SHORT_ENTRIES, 0, 0};
    fold_text(page, text, n, copy);
    memset(scratch, 0, scratch_len * sizeof *scratch);
    while (resolved < all) {
        take_group(&group, role, day, book, book_len, &taken);
        find_group(&group, page == 1 ? twin_page_1 : twin_page_15, copy, n, scratch, scratch_len);
        reads += (uint32_t)n;
        struct twin_answer written = write_entries(&group, text, &at, entries + 3 * resolved);
        if (written.refusal != 0)
            return (struct twin_resolving){written.refusal, written.number, reads};
        resolved += written.number;
    }
    return (struct twin_resolving){0, resolved, reads};
}
